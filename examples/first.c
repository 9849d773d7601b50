/* Translates a guest block, lists it, runs it, places it and looks it up. It runs on x86-64 and on AArch64; the
 * block's words are done by hilofanur_a64_run, so that no Arm processor is needed. jump.c is a dispatcher that
 * jumps. */
#include "hilofanur.h"

#include <inttypes.h>
#include <stdio.h>
#include <string.h>

/* addi a0, a0, 5; add a0, a0, a1; ret */
static const uint8_t guest[] = {0x13, 0x05, 0x55, 0x00, 0x33, 0x05, 0xb5, 0x00, 0x82, 0x80};
enum { PC = 0x1000, LIMIT = 64, SLOT_OFFSET = 0, RA = 1, A0 = 10, A1 = 11 };

int main(void)
{
    static uint8_t words[HILOFANUR_LONGEST_BLOCK], text[HILOFANUR_LONGEST_BLOCK / 4 * HILOFANUR_LONGEST_LINE];
    struct hilofanur_translate_answer block = hilofanur_translate(
        guest, sizeof guest, PC, LIMIT, false, SLOT_OFFSET, 0x10000, 0x20000, 0x30000, words, sizeof words);
    if (block.refusal) {
        printf("refused %" PRIu32 "\n", block.refusal);
        return 1;
    }
    struct hilofanur_list_answer listed = hilofanur_list(words, block.length, text, sizeof text);
    printf("%" PRIu32 " guest instructions, %" PRIu32 " words:\n", block.count, block.length / 4);
    fwrite(text, 1, listed.length, stdout);

    /* The guest's registers, one to a slot, are the run's whole memory. X0 has its address. */
    uint64_t slots[32] = {0}, x[33] = {0};
    slots[RA] = 0x2000, slots[A0] = 30, slots[A1] = 7;
    x[0] = (uintptr_t)slots;
    struct hilofanur_a64_run_answer run = hilofanur_a64_run(words, block.length, 0x40000, (uint8_t *)x,
        block.length / 4, (uint8_t *)slots, sizeof slots, (uintptr_t)slots);
    printf("run: %s after %" PRIu64 " words, a0 = %" PRIu64, run.end == HILOFANUR_RETURNED ? "returned" : "stopped",
        run.steps, slots[A0]);
    printf(", next PC %" PRIx64 ", %" PRIu64 " instructions\n", x[0], x[1]);

    /* For years: an index of blocks and its store. */
    static uint8_t index[HILOFANUR_INDEX_BYTES], store[1 << 16];
    hilofanur_index_empty(index);
    struct hilofanur_index_place_answer placed =
        hilofanur_index_place(index, store, sizeof store, 0, PC, block.count, words, block.length);
    struct hilofanur_index_lookup_answer found = hilofanur_index_lookup(index, 0, PC);
    bool whole = !placed.refusal && !found.refusal && found.length == block.length &&
        !memcmp(store + found.start, words, block.length);
    printf("placed at %" PRIu64 " and found: %s\n", placed.start, whole ? "the same words" : "NOT THE SAME");
    return !(run.end == HILOFANUR_RETURNED && slots[A0] == 42 && x[0] == 0x2000 && x[1] == block.count && whole);
}
