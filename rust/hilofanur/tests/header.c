/* The functions from C. Prints document 01's row 5 as its program does, then a line for each of the others. */
#include "hilofanur.h"

#include <inttypes.h>
#include <stdio.h>

static uint32_t word_at(const uint8_t *bytes)
{
    return bytes[0] | (uint32_t)bytes[1] << 8 | (uint32_t)bytes[2] << 16 | (uint32_t)bytes[3] << 24;
}

static struct hilofanur_translate_answer translate(uint64_t slot_offset, uint8_t *output, size_t length)
{
    static const uint8_t guest[] = {0x01, 0x00, 0x41, 0x9c};
    return hilofanur_translate(
        guest, sizeof guest, 0x1000, 2, false, slot_offset, 0x10000, 0x20000, 0x30000, output, length);
}

_Static_assert(sizeof(struct hilofanur_translate_answer) == 4 * sizeof(uint32_t), "refusal, length, count, end");
_Static_assert(sizeof(struct hilofanur_index_place_answer) == 2 * sizeof(uint64_t), "refusal, start");
_Static_assert(HILOFANUR_BLOCK_BYTES(64) == HILOFANUR_LONGEST_BLOCK, "64 is the most");
_Static_assert(sizeof(struct hilofanur_index_lookup_answer) == 4 * sizeof(uint64_t), "refusal, start, length, count");

/* A block by its end, its bytes, count and next PC, as translation and the RV64 run have them. */
static void end_kind(const uint8_t *guest, size_t length, enum hilofanur_end_kind kind)
{
    uint8_t output[HILOFANUR_LONGEST_BLOCK], registers[HILOFANUR_REGISTERS] = {0};
    struct hilofanur_translate_answer block =
        hilofanur_translate(guest, length, 0x1000, 3, false, 0, 0x10000, 0x20000, 0x30000, output, sizeof output);
    struct hilofanur_rv64_run_answer ran = hilofanur_rv64_run(guest, length, 0x1000, 3, false, registers);
    printf("end kind %d, %" PRIu32 " bytes, count %" PRIu32, block.end == kind, block.length, block.count);
    printf(", ran %" PRIu32 " to %" PRIx64 "\n", ran.count, ran.next_pc);
}

/* C.NOP, then C.NOP, C.LW, or FENCE.I and C.NOP. */
static void end_kinds(void)
{
    const uint8_t plain[] = {0x01, 0x00, 0x01, 0x00}, helper[] = {0x01, 0x00, 0x00, 0x40};
    const uint8_t drop[] = {0x01, 0x00, 0x0f, 0x10, 0x00, 0x00, 0x01, 0x00};
    end_kind(plain, sizeof plain, HILOFANUR_PLAIN);
    end_kind(helper, sizeof helper, HILOFANUR_HELPER);
    end_kind(drop, sizeof drop, HILOFANUR_DROP);
}

/* C.NOP and C.LW, whose helper the caller plays: called, then gone on with. */
static void call(void)
{
    static const uint8_t guest[] = {0x01, 0x00, 0x00, 0x40};
    uint8_t block[HILOFANUR_LONGEST_BLOCK], state[HILOFANUR_STATE] = {0}, memory[HILOFANUR_REGISTERS + 16] = {0};
    uint32_t length = hilofanur_translate(
        guest, sizeof guest, 0x1000, 2, false, 0, 0x10000, 0x20000, 0x30000, block, sizeof block).length;
    /* X30 is 7; SP is 272, after the slots and 16 bytes. */
    state[8 * 30] = 7;
    state[8 * 31] = 0x10;
    state[8 * 31 + 1] = 0x01;
    struct hilofanur_a64_run_answer run =
        hilofanur_a64_run(block, length, 0x4000, state, 100, memory, sizeof memory, 0);
    printf("called %d %" PRIu64 " %" PRIx32, run.end == HILOFANUR_CALLED, run.steps, word_at(state + 8 * 16));
    printf(" %" PRIx32 " %" PRIx32, word_at(state + 8 * 5), word_at(state + 8 * 6));
    printf(" %" PRIx32 " %" PRIx32 "\n", word_at(state + 8 * 30), word_at(state + 8 * 31));
    /* The helper's X0 is 0x1004, its X1 is 1. */
    state[0] = 0x04;
    state[1] = 0x10;
    state[8] = 1;
    run = hilofanur_a64_run_from(block, length, 0x4000, run.steps, state, 100, memory, sizeof memory, 0);
    printf("returned %d %" PRIu64 " %" PRIx32, run.end == HILOFANUR_RETURNED, run.steps, word_at(state));
    printf(" %" PRIx32 " %" PRIx32 " %" PRIx32 "\n", word_at(state + 8), word_at(state + 8 * 30), word_at(state + 8 * 31));
    run = hilofanur_a64_run_from(block, length, 0x4000, UINT64_MAX, state, 0, memory, sizeof memory, 0);
    printf("off the end %d %" PRIu64 "\n", run.end == HILOFANUR_OFF_THE_END, run.steps);
    printf("refused %" PRIu32, hilofanur_a64_run_from(block, 3, 0, 9, state, 9, memory, 0, 0).refusal);
    printf(" %" PRIu32 "\n", hilofanur_a64_run_from(block, 4, 0, 9, state, 9, memory, 2, UINT64_MAX).refusal);
}

/* Each end of a run, by one word: none, RET without a budget, a word outside the forms, LDR outside memory, RET, BLR. */
static void ends(void)
{
    static const uint32_t words[] = {0, 0xD65F03C0, 0, 0xF9400009, 0xD65F03C0, 0xD63F0200};
    static const enum hilofanur_end names[] = {HILOFANUR_OFF_THE_END, HILOFANUR_SPENT, HILOFANUR_UNREADABLE,
        HILOFANUR_FAULT, HILOFANUR_RETURNED, HILOFANUR_CALLED};
    printf("ends");
    for (int n = 0; n < 6; n++) {
        uint8_t state[HILOFANUR_STATE] = {0}, memory[1] = {0}, block[4];
        for (int k = 0; k < 4; k++)
            block[k] = words[n] >> 8 * k;
        struct hilofanur_a64_run_answer run = hilofanur_a64_run(block, n ? 4 : 0, 0, state, n != 1, memory, 0, 0);
        printf(" %d:%" PRIu32, names[n] == run.end, run.end);
    }
    printf("\n");
}

/* The most bytes by the limit, which may be any expression, and what a block of one CPOPW x5, x6 takes of them. */
static void block_bytes(void)
{
    static const uint8_t guest[] = {0x9b, 0x12, 0x23, 0x60};
    static const uint32_t limits[] = {0, 1, 8, 63, 64, 65, UINT32_MAX};
    uint8_t output[HILOFANUR_BLOCK_BYTES(1)];
    printf("block bytes");
    for (int n = 0; n < 7; n++)
        printf(" %zu", HILOFANUR_BLOCK_BYTES(limits[n]));
    printf(" %zu %zu\n", HILOFANUR_BLOCK_BYTES(output[0] > 255 ? 1 : 2), 2 * HILOFANUR_BLOCK_BYTES(1 + 1));
    struct hilofanur_translate_answer block = hilofanur_translate(
        guest, sizeof guest, UINT64_MAX - 1, 1, false, 0, 0x10000, 0x20000, 0x30000, output, sizeof output);
    printf("cpopw %" PRIu32 " of %zu\n", block.length, sizeof output);
}

static void place(uint8_t *index, uint8_t *store, size_t length, uint64_t pc, const uint8_t *code, size_t code_length)
{
    struct hilofanur_index_place_answer placed =
        hilofanur_index_place(index, store, length, UINT64_MAX, pc, 64, code, code_length);
    printf("index place %" PRIu64 " %" PRIu64 "\n", placed.refusal, placed.start);
}

static void look_up(const uint8_t *index, uint64_t space, uint64_t pc)
{
    struct hilofanur_index_lookup_answer found = hilofanur_index_lookup(index, space, pc);
    printf("index lookup %" PRIu64, found.refusal);
    printf(" %" PRIu64 " %" PRIu64 " %" PRIu64 "\n", found.start, found.length, found.count);
}

/* Three blocks in a store of 16 bytes; the third is too long for the rest and drops the others. */
static void use_index(void)
{
    static uint8_t index[HILOFANUR_INDEX_BYTES];
    uint8_t store[16] = {0};
    const uint8_t code[] = {1, 2, 3, 4, 5, 6, 7, 8, 9, 10, 11, 12};
    hilofanur_index_empty(index);
    look_up(index, UINT64_MAX, 0x1000);
    place(index, store, sizeof store, 0x1000, code, 4);
    place(index, store, sizeof store, 0x2000, code, 8);
    place(index, store, sizeof store, 0x2000, code, 6);
    look_up(index, UINT64_MAX, 0x1000);
    look_up(index, UINT64_MAX, 0x2000);
    look_up(index, 0x2000, UINT64_MAX);
    printf("store %d %d %d\n", store[3], store[4], store[12]);
    place(index, store, sizeof store, 0x3000, code, 12);
    look_up(index, UINT64_MAX, 0x1000);
    look_up(index, UINT64_MAX, 0x3000);
    hilofanur_index_empty(index);
    look_up(index, UINT64_MAX, 0x3000);
    printf("index bytes %zu\n", sizeof index);
}

static void others(void)
{
    use_index();
    end_kinds();
    call();
    ends();
    block_bytes();
}

int main(void)
{
    uint8_t output[HILOFANUR_LONGEST_BLOCK];
    struct hilofanur_translate_answer block = translate(0, output, sizeof output);
    for (uint32_t at = 0; at < block.length; at += 4)
        printf("%08" PRIx32 "\n", word_at(output + at));
    printf("%" PRIu32 "\n", block.count);
    printf("refused %" PRIu32 "\n", translate(32520, output, sizeof output).refusal);
    printf("refused %" PRIu32 "\n", translate(0, output, 19).refusal);

    uint8_t store[64];
    struct hilofanur_place_answer placed = hilofanur_place(store, sizeof store, 5, output, block.length);
    printf("placed %" PRIu64 " %" PRIu64 "\n", placed.start, placed.used);

    uint8_t registers[HILOFANUR_REGISTERS] = {0};
    const uint8_t li[] = {0x7d, 0x55};
    struct hilofanur_rv64_run_answer ran = hilofanur_rv64_run(li, sizeof li, 0x1000, 1, false, registers);
    printf("ran %" PRIu32 " %" PRIx64 " %02x\n", ran.count, ran.next_pc, registers[87]);

    uint8_t state[HILOFANUR_STATE] = {0}, slots[HILOFANUR_REGISTERS] = {0};
    struct hilofanur_a64_run_answer run =
        hilofanur_a64_run(store + placed.start, block.length, 0, state, 100, slots, sizeof slots, 0);
    printf("end %d %" PRIu64 " %02x%02x\n", run.end == HILOFANUR_RETURNED, run.steps, state[1], state[0]);

    uint8_t listing[5 * HILOFANUR_LONGEST_LINE];
    struct hilofanur_list_answer listed = hilofanur_list(output, block.length, listing, sizeof listing);
    uint64_t length = listed.length;
    printf("listed %" PRIu64 " %" PRIu64 "\n%.*s", length, listed.offset, (int)length, (const char *)listing);
    printf("refused %" PRIu64 "\n", hilofanur_list(output, 3, listing, 0).refusal);
    const uint8_t zeros[8] = {0};
    listed = hilofanur_list(zeros, sizeof zeros, listing, 0);
    printf("refused %" PRIu64 " %d\n", listed.refusal, listed.offset == 0 || listed.offset == 4);
    printf("refused %" PRIu64 "\n", hilofanur_list(output, block.length, listing, length - 1).refusal);
    others();
    printf("version %s\n", HILOFANUR_VERSION);
    return 0;
}
