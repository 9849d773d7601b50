/* Every operation of hilofanur.h on seeded inputs: a hash of every field of every answer and of every lent byte,
 * for each 1,000 cases. The same source is compiled for x86-64 and for AArch64; both must print the same.
 *
 *   compare SEED THOUSANDS
 *
 * Each call that takes a narrow number is made once more with anything above its bits, which both conventions leave
 * to the caller. PLANT_ANSWER, where defined, changes an answer of Place: the hashes must then differ. */
#include "draw.h"

#include <inttypes.h>
#include <stdio.h>
#include <stdlib.h>

#define GUARD 64
#define GUEST 300
#define OUTPUT (HILOFANUR_LONGEST_BLOCK + 64)
#define MEMORY 1024
#define STORE 60000

#define REFUSALS 32

static uint64_t hash, calls, wide_differences, refusals[REFUSALS], ends[8];

/* The functions with each narrow number as one of 64 bits. */
struct hilofanur_translate_answer wide_translate(const uint8_t *, size_t, uint64_t, uint64_t, uint64_t, uint64_t,
    uint64_t, uint64_t, uint64_t, uint8_t *, size_t) __asm__("hilofanur_translate");
struct hilofanur_rv64_run_answer wide_rv64_run(
    const uint8_t *, size_t, uint64_t, uint64_t, uint64_t, uint8_t *) __asm__("hilofanur_rv64_run");
struct hilofanur_index_place_answer wide_index_place(uint8_t *, uint8_t *, size_t, uint64_t, uint64_t, uint64_t,
    const uint8_t *, size_t) __asm__("hilofanur_index_place");

static void take(uint64_t number)
{
    hash = mix(hash, number);
}
static void take_bytes(const uint8_t *bytes, size_t length)
{
    hash = mix_bytes(hash, bytes, length);
}
static void refused(uint64_t refusal)
{
    calls++;
    refusals[refusal % REFUSALS]++;
    take(refusal);
}

/* A buffer at any alignment, between guards. */
static uint8_t *within(uint8_t *room)
{
    return room + GUARD + below(8);
}

struct job {
    uint8_t guest[GUEST + 2 * GUARD], output[OUTPUT + 2 * GUARD + 8];
    uint64_t pc, slot_offset, memory_helper, helper32, helper16;
    size_t guest_length, output_length;
    uint32_t limit;
    bool ignore_ebreak;
};

static void draw_job(struct job *j)
{
    j->guest_length = one_in(10) ? below(8) : below(GUEST + 1);
    fill(j->guest, sizeof j->guest);
    guest_code(j->guest + GUARD, j->guest_length);
    j->pc = one_in(40) ? number() | 1 : number() & ~UINT64_C(1);
    j->slot_offset = one_in(60) ? number() : 8 * below(one_in(2) ? 4065 : 33);
    j->memory_helper = number(), j->helper32 = number(), j->helper16 = number();
    j->output_length = one_in(10) ? below(400) : HILOFANUR_LONGEST_BLOCK;
    j->limit = one_in(60) ? 0 : one_in(3) ? below(8) : one_in(3) ? (uint32_t)number() : 64;
    j->ignore_ebreak = one_in(2);
    fill(j->output, sizeof j->output);
}

static struct hilofanur_translate_answer translate(const struct job *j, uint8_t *output)
{
    return hilofanur_translate(j->guest + GUARD, j->guest_length, j->pc, j->limit, j->ignore_ebreak, j->slot_offset,
        j->memory_helper, j->helper32, j->helper16, output, j->output_length);
}

static void translates(void)
{
    static struct job j, other;
    draw_job(&j);
    other = j;
    size_t at = GUARD + below(8);
    struct hilofanur_translate_answer a = translate(&j, j.output + at), b;
    if (a.refusal == 0 && one_in(4)) { /* again with room that just does, or does not */
        memcpy(j.output, other.output, sizeof j.output);
        j.output_length = other.output_length = a.length - (one_in(2) ? 1 + below(8) : 0);
        a = translate(&j, j.output + at);
    }
    b = wide_translate(other.guest + GUARD, j.guest_length, j.pc, j.limit | draw() << 32,
        j.ignore_ebreak | draw() << 8, j.slot_offset, j.memory_helper, j.helper32, j.helper16, other.output + at,
        j.output_length);
    wide_differences += memcmp(&a, &b, sizeof a) || memcmp(j.output, other.output, sizeof j.output);
    refused(a.refusal);
    ends[a.end < 8 ? a.end : 7]++;
    take(a.length), take(a.count), take(a.end);
    take_bytes(j.output, sizeof j.output);
    take_bytes(j.guest, sizeof j.guest);
}

static void places(void)
{
    uint8_t room[2048 + 2 * GUARD + 8], code[512 + 2 * GUARD + 8];
    fill(room, sizeof room);
    fill(code, sizeof code);
    size_t length = below(2049), code_length = below(513);
    uint64_t used = one_in(8) ? number() : one_in(3) ? length - below(600) : below(length + 4);
    uint8_t *store = within(room), *from = within(code);
    struct hilofanur_place_answer a = hilofanur_place(store, length, used, from, code_length);
#ifdef PLANT_ANSWER
    a.used += a.used == 1000;
#endif
    refused(a.refusal);
    take(a.start), take(a.used);
    take_bytes(room, sizeof room);
    take_bytes(code, sizeof code);
}

static void rv64_runs(void)
{
    static struct job j;
    uint8_t room[HILOFANUR_REGISTERS + 2 * GUARD + 8], other[sizeof room];
    draw_job(&j);
    fill(room, sizeof room);
    uint8_t *registers = within(room);
    for (int n = 0; n < 32; n++)
        memcpy(registers + 8 * n, &(uint64_t){number()}, 8);
    memcpy(other, room, sizeof room);
    struct hilofanur_rv64_run_answer b = wide_rv64_run(j.guest + GUARD, j.guest_length, j.pc,
        j.limit | draw() << 32, j.ignore_ebreak | draw() << 8, other + (registers - room));
    struct hilofanur_rv64_run_answer a =
        hilofanur_rv64_run(j.guest + GUARD, j.guest_length, j.pc, j.limit, j.ignore_ebreak, registers);
    wide_differences += memcmp(&a, &b, sizeof a) || memcmp(room, other, sizeof room);
    refused(a.refusal);
    take(a.count), take(a.next_pc);
    take_bytes(room, sizeof room);
    take_bytes(j.guest, sizeof j.guest);
}

/* Words: those of a translated block, in some cases with some of them changed. The number of their bytes. */
static size_t words(struct job *j, uint8_t *block)
{
    struct hilofanur_translate_answer a;
    do {
        draw_job(j);
        j->slot_offset = 8 * below(33);
        j->output_length = HILOFANUR_LONGEST_BLOCK;
        a = translate(j, block);
    } while (a.refusal);
    size_t length = one_in(8) ? below(a.length + 1) : a.length;
    for (uint64_t n = one_in(2) ? below(4) : 0; n && length; n--) {
        uint8_t *byte = block + below(length);
        *byte = one_in(2) ? (uint8_t)draw() : *byte ^ 1 << below(8);
    }
    return length;
}

static void a64_runs(void)
{
    static struct job j;
    static uint8_t block[HILOFANUR_LONGEST_BLOCK];
    uint8_t room[MEMORY + 2 * GUARD + 8], state_room[HILOFANUR_STATE + 2 * GUARD + 8];
    size_t length = words(&j, block), memory_length = one_in(10) ? below(MEMORY + 1) : MEMORY;
    fill(room, sizeof room);
    fill(state_room, sizeof state_room);
    uint8_t *memory = within(room), *state = within(state_room);
    uint64_t x[33], unaligned = one_in(20) ? 7 : 15, base = one_in(10) ? -below(2 * MEMORY) : number() & ~unaligned;
    for (int n = 0; n < 33; n++)
        x[n] = number();
    x[0] = base + (one_in(20) ? below(MEMORY) : 8 * below(32));
    x[31] = base + MEMORY - (one_in(20) ? below(MEMORY) : 16 * below(8));
    memcpy(state, x, sizeof x);
    uint64_t budget = one_in(4) ? below(200) : one_in(8) ? number() : length / 4, address = number();
    struct hilofanur_a64_run_answer a =
        hilofanur_a64_run(block, length, address, state, budget, memory, memory_length, base);
    refused(a.refusal);
    take(a.end), take(a.steps);
    take_bytes(room, sizeof room);
    take_bytes(state_room, sizeof state_room);
    /* On from there, as after a call, or from any word. */
    uint64_t first = a.end == HILOFANUR_CALLED ? a.steps : one_in(8) ? number() : below(length / 4 + 2);
    for (int n = 0; n < 31; n++)
        memcpy(state + 8 * n, &(uint64_t){n ? number() : x[0]}, 8);
    a = hilofanur_a64_run_from(block, length, address, first, state, budget, memory, memory_length, base);
    refused(a.refusal);
    take(a.end), take(a.steps);
    take_bytes(room, sizeof room);
    take_bytes(state_room, sizeof state_room);
    take_bytes(block, length);
}

static void lists(void)
{
    static struct job j;
    static uint8_t block[HILOFANUR_LONGEST_BLOCK],
        room[HILOFANUR_LONGEST_BLOCK / 4 * HILOFANUR_LONGEST_LINE + 2 * GUARD + 8];
    size_t length = words(&j, block), most = length / 4 * HILOFANUR_LONGEST_LINE;
    size_t output_length = one_in(10) ? below(most + 1) : most;
    uint8_t *output = within(room);
    fill(room, 2 * GUARD + 8 + most);
    struct hilofanur_list_answer a = hilofanur_list(block, length, output, output_length);
    if (a.refusal == 0 && one_in(4)) { /* again with room that just does, or does not */
        fill(room, 2 * GUARD + 8 + most);
        a = hilofanur_list(block, length, output, a.length - (one_in(2) && a.length ? 1 : 0));
    }
    refused(a.refusal);
    take(a.length), take(a.offset);
    take_bytes(room, 2 * GUARD + 8 + most);
    take_bytes(block, length);
}

/* An index, its store, and how keys and code are drawn. */
struct kept {
    uint8_t index_room[HILOFANUR_INDEX_BYTES + 2 * GUARD + 8], store_room[STORE + 2 * GUARD + 8];
    uint8_t *index, *store;
    size_t length;
    uint64_t keys, longest;
};

/* Emptied, or with any bytes in it, of which small numbers are followed further. */
static void begin(struct kept *k, bool any)
{
    fill(k->index_room, sizeof k->index_room);
    fill(k->store_room, sizeof k->store_room);
    k->index = within(k->index_room), k->store = within(k->store_room);
    k->length = one_in(2) ? below(STORE + 1) : below(3000);
    k->keys = 1 + below(one_in(2) ? 1000 : 20);
    k->longest = 1 + below(one_in(2) ? 24 : 500);
    if (!any)
        hilofanur_index_empty(k->index);
    for (int n = 0; any && n < HILOFANUR_INDEX_BYTES; n += 1 + below(3))
        k->index[n] = one_in(3) ? draw() : below(3);
}

static void index_places(struct kept *k, uint64_t space, uint64_t pc)
{
    static struct kept other;
    uint8_t code[2048 + 8], count = (uint8_t)draw();
    size_t length = one_in(30) ? below(2049) : 4 * below(k->longest);
    fill(code, sizeof code);
    other = *k;
    uint8_t *index = other.index_room + (k->index - k->index_room),
            *store = other.store_room + (k->store - k->store_room);
    struct hilofanur_index_place_answer b =
        wide_index_place(index, store, k->length, space, pc, count | draw() << 8, code, length);
    struct hilofanur_index_place_answer a =
        hilofanur_index_place(k->index, k->store, k->length, space, pc, count, code, length);
    wide_differences += memcmp(&a, &b, sizeof a) || memcmp(other.index_room, k->index_room, sizeof k->index_room) ||
        memcmp(other.store_room, k->store_room, sizeof k->store_room);
    refused(a.refusal);
    take(a.start);
    take_bytes(k->store_room, sizeof k->store_room);
}

/* One call of many, with another index, store and keys now and then. */
static void indexes(bool any)
{
    static struct kept k;
    if (!k.index || one_in(any ? 20 : 400))
        begin(&k, any);
    uint64_t space = below(3) - 1, pc = 0x1000 + 2 * below(k.keys);
    if (one_in(any ? 50 : 500)) {
        hilofanur_index_empty(k.index);
    } else if (one_in(2)) {
        index_places(&k, space, pc);
    } else {
        struct hilofanur_index_lookup_answer a = hilofanur_index_lookup(k.index, space, pc);
        refused(a.refusal);
        take(a.start), take(a.length), take(a.count);
    }
    take_bytes(k.index_room, sizeof k.index_room);
}

static void indexes_emptied(void)
{
    indexes(false);
}
static void indexes_any(void)
{
    indexes(true);
}

static const struct {
    const char *name;
    void (*run)(void);
} operations[] = {{"translate", translates}, {"place", places}, {"rv64_run", rv64_runs}, {"a64_run", a64_runs},
    {"list", lists}, {"index", indexes_emptied}, {"index, any bytes", indexes_any}};

static void compare(unsigned o, uint64_t first, int thousands)
{
    memset(refusals, 0, sizeof refusals);
    for (int k = 0; k < thousands; k++) {
        seed = first * 1000003 + o * 1009 + k;
        hash = 0;
        for (int n = 0; n < 1000; n++)
            operations[o].run();
        printf("%s %d: %016" PRIx64 "\n", operations[o].name, k, hash);
    }
    printf("%s refusals:", operations[o].name);
    for (int n = 0; n < REFUSALS; n++)
        if (refusals[n])
            printf(" %d:%" PRIu64, n, refusals[n]);
    putchar('\n');
}

int main(int argc, char **argv)
{
    uint64_t first = argc > 1 ? strtoull(argv[1], NULL, 0) : 1;
    int thousands = argc > 2 ? atoi(argv[2]) : 20;
    for (unsigned o = 0; o < sizeof operations / sizeof *operations; o++)
        compare(o, first, thousands);
    printf("ends of blocks: %" PRIu64 " plain, %" PRIu64 " by a helper, %" PRIu64 " by FENCE.I\n", ends[1], ends[2],
        ends[3]);
    printf("%" PRIu64 " calls, %" PRIu64 " of them otherwise with anything above narrow numbers\n", calls,
        wide_differences);
    return wide_differences != 0;
}
