/* Blocks of seeded guests, jumped to: every register and the flags at the helper's entry and at the return, and
 * every byte of memory at the return, beside what hilofanur_a64_run says of the same words at the same address; and
 * slots 1 to 31, the next PC and the count beside what hilofanur_rv64_run says of the guest.
 *
 *   blocks SEED BLOCKS
 *
 * PLANT_BIT and PLANT_SAVED, where defined, change the placed words and only these: the comparison must find it. */
#include "draw.h"
#include "store.h"

#include <inttypes.h>

#define ARENA 36864 /* slots up to 32,512 bytes from X0, and a stack */
#define X30 30
#define SP 31
#define NZCV 32
#define FRAME 33

/* enter.S */
void enter(uint64_t frame[FRAME], const void *block);
void spy_memory(void), spy_32(void), spy_16(void);
extern char entered[];
extern uint64_t at_helper[FRAME], left_by_helper[FRAME];

/* A guest, and what Translate made of it. */
struct job {
    uint8_t guest[300], output[HILOFANUR_LONGEST_BLOCK];
    size_t length;
    uint64_t pc, offset;
    uint32_t limit;
    bool ignore;
    struct hilofanur_translate_answer block;
};

static uint8_t arena[ARENA] __attribute__((aligned(16))), model[ARENA];
static uint64_t differences, kinds[4], steps, instructions;

static void differ(const char *what, int n, uint64_t is, uint64_t should)
{
    if (differences++ < 20)
        printf("DIFFERENCE %s %d: %" PRIx64 ", not %" PRIx64 "\n", what, n, is, should);
}

static void same(const char *what, uint64_t is, uint64_t should)
{
    if (is != should)
        differ(what, 0, is, should);
}

/* All but X16, by which the frames are reached. */
static void same_registers(const char *what, const uint64_t *is, const uint64_t *should)
{
    for (int n = 0; n < FRAME; n++)
        if (n != 16 && is[n] != should[n])
            differ(what, n, is[n], should[n]);
}

static void same_memory(void)
{
    for (int n = 0; n < ARENA; n++)
        if (arena[n] != model[n])
            differ("memory", n, arena[n], model[n]);
}

/* A wide move (MOVZ or MOVK), but of X16, which leads to the helper. */
static bool is_wide_move(uint32_t word)
{
    return (word >> 23 & 0x1BF) == 0x1A5 && (word & 31) != 16;
}

/* An error in the placed words, where one is to be planted. */
static void plant(uint8_t *placed, const struct hilofanur_translate_answer *block)
{
    (void)placed, (void)block, (void)is_wide_move;
#if defined PLANT_BIT || defined PLANT_SAVED
    for (size_t n = block->length; n >= 4; n -= 4) {
        uint32_t word;
        memcpy(&word, placed + n - 4, 4);
        if (!is_wide_move(word))
            continue;
#ifdef PLANT_BIT
        word ^= 1 << 5; /* the lowest bit of its number */
#else
        if (block->end != HILOFANUR_HELPER || (word & 31) < 5 || (word & 31) > 7)
            continue; /* an argument of the helper's stub goes to X20 */
        word = (word & ~31u) | 20;
#endif
        memcpy(placed + n - 4, &word, 4);
        return;
    }
#endif
}

static bool translated(struct job *j)
{
    j->length = 4 + below(297);
    guest_code(j->guest, j->length);
    j->pc = number() & ~UINT64_C(1);
    j->offset = 8 * below(one_in(2) ? 4065 : 33);
    j->limit = one_in(3) ? 1 + below(8) : 64;
    j->ignore = one_in(2);
    j->block = hilofanur_translate(j->guest, j->length, j->pc, j->limit, j->ignore, j->offset,
        (uintptr_t)spy_memory, (uintptr_t)spy_32, (uintptr_t)spy_16, j->output, sizeof j->output);
    return !j->block.refusal;
}

static const void *placed(const struct job *j, struct store *s)
{
    uint32_t length = j->block.length;
    store_open(s);
    uint64_t used = below(s->length - sizeof j->output - 4);
    uint64_t start = hilofanur_place(s->write, s->length, used, j->output, length).start;
    plant(s->write + start, &j->block);
    store_close(s, start, length);
    return s->run + start;
}

/* Anything in registers and memory; X0 leads to the slots, SP to the stack. */
static void draw_state(const struct job *j, uint64_t *x)
{
    for (int n = 0; n < FRAME; n++)
        x[n] = number(), left_by_helper[n] = number();
    x[0] = (uintptr_t)arena + 8 * below(32);
    x[SP] = (uintptr_t)arena + ARENA - 16 * below(32);
    x[NZCV] &= 15, left_by_helper[NZCV] &= 15;
    for (int n = 0; n < ARENA; n += 8)
        memcpy(arena + n, &(uint64_t){n < 2048 || n >= (int)j->offset ? number() : 0}, 8);
    memcpy(model, arena, ARENA);
}

static struct hilofanur_a64_run_answer run_from(
    const struct job *j, const void *code, uint64_t first, uint64_t *state)
{
    struct hilofanur_a64_run_answer ran = hilofanur_a64_run_from(j->output, j->block.length, (uintptr_t)code, first,
        (uint8_t *)state, j->block.length / 4, model, ARENA, (uintptr_t)arena);
    steps += ran.steps;
    return ran;
}

/* What A64 run has at the call beside what the helper found; then on from the state that it left. */
static void past_helper(const struct job *j, const void *code, uint64_t first, uint64_t *state)
{
    same_registers("at the helper, X", at_helper, state);
    memcpy(state, left_by_helper, 31 * 8);
    state[NZCV] = left_by_helper[NZCV];
    state[17] = at_helper[X30]; /* the helper's way back */
    same("end after the call", run_from(j, code, first, state).end, HILOFANUR_RETURNED);
}

static void one(struct store *s)
{
    static struct job j;
    uint64_t x[FRAME], after[FRAME], state[FRAME];
    uint8_t registers[HILOFANUR_REGISTERS];
    if (!translated(&j))
        return;
    bool helper = j.block.end == HILOFANUR_HELPER;
    const void *code = placed(&j, s);
    kinds[j.block.end]++;
    instructions += j.block.count;
    draw_state(&j, x);
    memcpy(after, x, sizeof x);
    enter(after, code);

    /* X16 and X17 of the entry are the frame's address and the block's. */
    x[16] = (uintptr_t)after, x[17] = (uintptr_t)code, x[X30] = (uintptr_t)entered;
    memcpy(state, x, sizeof x);
    uint8_t *slots = model + (x[0] - (uintptr_t)arena) + j.offset;
    memcpy(registers, slots, sizeof registers);
    struct hilofanur_rv64_run_answer isa =
        hilofanur_rv64_run(j.guest, j.length, j.pc, j.limit, j.ignore, registers);
    struct hilofanur_a64_run_answer run = run_from(&j, code, 0, state);
    same("end", run.end, helper ? HILOFANUR_CALLED : HILOFANUR_RETURNED);
    same("slots", !!memcmp(slots + 8, registers + 8, 248), 0);
    same("RV64 run's refusal", isa.refusal, helper && j.block.count == 1 ? 5 : 0);
    same("count", isa.count + helper, j.block.count);
    if (helper)
        past_helper(&j, code, run.steps, state);
    same("next PC", after[0], helper ? left_by_helper[0] : isa.next_pc);
    same("X1", after[1], helper ? left_by_helper[1] + isa.count : isa.count);
    same_registers("at the return, X", after, state);
    same("SP", after[SP], x[SP]);
    same("X30", after[X30], x[X30]);
    same_memory();
}

int main(int argc, char **argv)
{
    uint64_t first = argc > 1 ? strtoull(argv[1], NULL, 0) : 1,
             blocks = argc > 2 ? strtoull(argv[2], NULL, 0) : 1000;
    struct store s = store_of(1 << 16, false);
    for (uint64_t n = 0; kinds[1] + kinds[2] + kinds[3] < blocks; n++) {
        seed = first << 32 | n;
        one(&s);
    }
    printf("%" PRIu64 " blocks jumped to (%" PRIu64 " plain, %" PRIu64 " ended by a helper, %" PRIu64
           " by FENCE.I)",
        blocks, kinds[1], kinds[2], kinds[3]);
    printf(", %" PRIu64 " guest instructions, %" PRIu64 " words: %" PRIu64 " differences\n", instructions, steps,
        differences);
    return differences != 0;
}
