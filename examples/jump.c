/* A dispatcher for AArch64 that jumps: runs an RV64 program by its translated blocks, on the processor.
 *
 *   jump [--check] [--twice] [--store BYTES] FILE
 *
 * FILE is an ELF64 file for RISC-V, as rust/hilofanur/examples has them. Its blocks are kept in an index with a
 * store of BYTES, 1 MiB if not given. --check: beside each block the library's RV64 run; what differs is told.
 * --twice: the store is mapped twice instead of mprotect. ECALL 64 writes and 93 ends; EBREAK ends. What was done
 * goes to standard error.
 *
 * No assembler is needed: a block is a C function, and so is each helper. */
#include "hilofanur.h"
#include "store.h"

#include <inttypes.h>
#include <string.h>

#define LIMIT 64
#define WINDOW 256 /* bytes of LIMIT instructions */
#define STACK 0x10000
#define MOST (1u << 28)
#define RUBBISH 0x7777 /* in slot 0, which may hold anything */

/* X0 of a block points to it; slot n is x[n]. */
struct hart {
    uint64_t other[8], x[32];
};
#define SLOT_OFFSET offsetof(struct hart, x)

/* The guest's memory, what its helpers did, and what is compared. */
struct machine {
    uint8_t *bytes;
    uint64_t base, size;
    const char *fault;
    uint64_t loads, stores, differences;
    uint64_t expected[32]; /* the registers as the ISA has them, before the helper's instruction */
    bool check;
};

/* Where blocks are kept. */
struct blocks {
    struct store store, once; /* the index's, and the one of a block that FENCE.I ends */
    size_t length;            /* of the index's store */
    uint8_t index[HILOFANUR_INDEX_BYTES], output[HILOFANUR_LONGEST_BLOCK];
    uint64_t translated, words, found, fences;
};

static void differ(struct machine *m, uint64_t pc, const char *what)
{
    if (m->differences++ < 10)
        fprintf(stderr, "DIFFERENCE %s at %" PRIx64 "\n", what, pc);
}

static void compare_registers(struct machine *m, const struct hart *h, uint64_t pc)
{
    if (m->check && memcmp(h->x + 1, m->expected + 1, 31 * 8))
        differ(m, pc, "registers");
}

static uint8_t *at(struct machine *m, uint64_t address, uint64_t size)
{
    uint64_t from = address - m->base;
    return from < m->size && size <= m->size - from ? m->bytes + from : NULL;
}

/* operation as the memory helper has it. Slot 0 may be written: no block reads it, and helper16 takes 0 for it. */
static void access_memory(
    struct hart *h, struct machine *m, uint64_t operation, uint64_t rd, uint64_t value, uint64_t address)
{
    uint64_t size = 1 << (operation & 3), number = 0, unused = 64 - 8 * size;
    uint8_t *place = at(m, address, size);
    if (!place) {
        m->fault = "an access outside memory";
    } else if (operation >= 16) {
        memcpy(place, &value, size);
        m->stores++;
    } else {
        memcpy(&number, place, size);
        h->x[rd] = operation < 4 ? (uint64_t)((int64_t)(number << unused) >> unused) : number;
        m->loads++;
    }
}

/* The helpers. Their first two arguments are what the dispatcher gives a block in X1 and X2. */
static struct hilofanur_next memory_helper(uint64_t hart, uint64_t machine, uint64_t unused, uint64_t operation,
    uint64_t rd, uint64_t value, uint64_t address, uint64_t pc)
{
    struct hart *h = (struct hart *)hart;
    struct machine *m = (struct machine *)machine;
    (void)unused;
    compare_registers(m, h, pc);
    access_memory(h, m, operation, rd, value, address);
    return (struct hilofanur_next){pc + 4, 1};
}

static struct hilofanur_next helper32(
    uint64_t hart, uint64_t machine, uint64_t c, uint64_t d, uint64_t e, uint64_t instruction, uint64_t pc)
{
    (void)hart, (void)c, (void)d, (void)e, (void)instruction;
    ((struct machine *)machine)->fault = "FP or AMO, which this dispatcher has not";
    return (struct hilofanur_next){pc, 0};
}

/* The offset of C.LW, C.LD, C.SW, C.SD (quadrant 0), and of the same four from the stack (quadrant 2). */
static uint64_t offset16(uint64_t i, bool is_double, bool store)
{
    if ((i & 3) == 0)
        return (i >> 10 & 7) << 3 | (is_double ? (i >> 5 & 3) << 6 : (i >> 5 & 1) << 6 | (i >> 6 & 1) << 2);
    if (store)
        return is_double ? (i >> 10 & 7) << 3 | (i >> 7 & 7) << 6 : (i >> 9 & 15) << 2 | (i >> 7 & 3) << 6;
    return (i >> 12 & 1) << 5 |
        (is_double ? (i >> 5 & 3) << 3 | (i >> 2 & 7) << 6 : (i >> 4 & 7) << 2 | (i >> 2 & 3) << 6);
}

static struct hilofanur_next helper16(
    uint64_t hart, uint64_t machine, uint64_t c, uint64_t d, uint64_t e, uint64_t i, uint64_t pc)
{
    struct hart *h = (struct hart *)hart;
    struct machine *m = (struct machine *)machine;
    bool is_double = i >> 13 & 1, store = i >> 15 & 1, stack = (i & 3) == 2;
    uint64_t base = stack ? 2 : (i >> 7 & 7) + 8, low = stack ? i >> 2 & 31 : (i >> 2 & 7) + 8,
             value = store && low ? h->x[low] : 0; /* C.SWSP and C.SDSP may store register 0 */
    (void)c, (void)d, (void)e;
    compare_registers(m, h, pc);
    if (!(i >> 14 & 1)) {
        m->fault = "FP of 16 bits, which this dispatcher has not";
        return (struct hilofanur_next){pc, 0};
    }
    access_memory(h, m, 2 + is_double + 16 * store, stack && !store ? i >> 7 & 31 : low, value,
        h->x[base] + offset16(i, is_double, store));
    return (struct hilofanur_next){pc + 2, 1};
}

static uint64_t field(const uint8_t *file, size_t at, size_t size)
{
    uint64_t number = 0;
    memcpy(&number, file + at, size);
    return number;
}

/* Whether a program header is of a segment to load that stands wholly in the file. */
static bool loads(const uint8_t *header, size_t length)
{
    uint64_t from = field(header, 8, 8), bytes = field(header, 32, 8);
    return field(header, 0, 4) == 1 && from <= length && bytes <= length - from && bytes <= field(header, 40, 8);
}

/* The guest's memory for the file's segments, with room for a stack after them. */
static void make_memory(struct machine *m, const uint8_t *headers, uint64_t many, size_t length)
{
    uint64_t first = UINT64_MAX, end = 0;
    for (uint64_t n = 0; n < many; n++) {
        uint64_t address = field(headers + 56 * n, 16, 8), size = field(headers + 56 * n, 40, 8);
        if (!loads(headers + 56 * n, length) || address > UINT64_MAX - size - STACK)
            continue;
        first = address < first ? address : first;
        end = address + size > end ? address + size : end;
    }
    m->base = first & ~UINT64_C(0xFFF);
    m->size = end - m->base + STACK;
    m->bytes = end && m->size <= MOST ? calloc(1, m->size) : NULL;
    if (!m->bytes)
        failed("the guest's memory");
}

/* Loads the file; returns its entry. */
static uint64_t load(const char *path, struct machine *m)
{
    static uint8_t file[1 << 20];
    FILE *stream = fopen(path, "rb");
    if (!stream)
        failed(path);
    size_t length = fread(file, 1, sizeof file, stream);
    fclose(stream);
    uint64_t headers = field(file, 32, 8), many = field(file, 56, 2);
    if (length < 64 || memcmp(file, "\177ELF\2\1", 6) || field(file, 18, 2) != 243 || headers > length ||
        56 * many > length - headers) {
        fprintf(stderr, "%s is no ELF64 file for RISC-V\n", path);
        exit(2);
    }
    make_memory(m, file + headers, many, length);
    for (uint64_t n = 0; n < many; n++) {
        const uint8_t *header = file + headers + 56 * n;
        uint8_t *to = at(m, field(header, 16, 8), field(header, 32, 8));
        if (loads(header, length) && to)
            memcpy(to, file + field(header, 8, 8), field(header, 32, 8));
    }
    return field(file, 24, 8);
}

/* Places the block in output; where its words can be run, or NULL. A block that FENCE.I ends is kept out of the
 * index, and the index is emptied: the guest may have changed its code. */
static const uint8_t *keep(struct blocks *b, uint64_t pc, const struct hilofanur_translate_answer *made)
{
    bool drop = made->end == HILOFANUR_DROP;
    struct store *to = drop ? &b->once : &b->store;
    struct hilofanur_index_place_answer placed = {0};
    store_open(to);
    if (drop) {
        b->fences++;
        hilofanur_index_empty(b->index);
        placed.start = hilofanur_place(to->write, to->length, 0, b->output, made->length).start;
    } else {
        placed = hilofanur_index_place(b->index, to->write, b->length, 0, pc, made->count, b->output, made->length);
    }
    store_close(to, placed.start, placed.refusal ? 0 : made->length);
    return placed.refusal ? NULL : to->run + placed.start;
}

/* The block at pc, found or made: where its words can be run. NULL where it is refused, with the refusal. */
static const uint8_t *block_at(
    struct blocks *b, const uint8_t *guest, size_t length, uint64_t pc, uint64_t *refusal)
{
    struct hilofanur_index_lookup_answer found = hilofanur_index_lookup(b->index, 0, pc);
    if (!found.refusal) {
        b->found++;
        return b->store.run + found.start;
    }
    struct hilofanur_translate_answer made = hilofanur_translate(guest, length, pc, LIMIT, false, SLOT_OFFSET,
        (uintptr_t)memory_helper, (uintptr_t)helper32, (uintptr_t)helper16, b->output, sizeof b->output);
    *refusal = made.refusal;
    if (made.refusal)
        return NULL;
    b->translated++;
    b->words += made.length / 4;
    const uint8_t *code = keep(b, pc, &made);
    *refusal = code ? 0 : 15;
    return code;
}

/* Runs a block; with --check beside the ISA's run. */
static struct hilofanur_next run(
    struct hart *h, struct machine *m, const uint8_t *code, const uint8_t *guest, size_t length, uint64_t pc)
{
    struct hilofanur_rv64_run_answer isa = {0};
    uint64_t helped = m->loads + m->stores;
    if (m->check) {
        h->x[0] = RUBBISH;
        memcpy(m->expected, h->x, sizeof h->x);
        isa = hilofanur_rv64_run(guest, length, pc, LIMIT, false, (uint8_t *)m->expected);
    }
    struct hilofanur_next next = ((hilofanur_block *)(uintptr_t)code)(h, (uintptr_t)h, (uintptr_t)m, 0, 0, 0);
    helped = m->loads + m->stores - helped;
    if (!m->check || m->fault)
        return next;
    if (next.count != isa.count + helped)
        differ(m, pc, "count");
    if (!helped) {
        compare_registers(m, h, pc);
        if (isa.refusal || next.pc != isa.next_pc)
            differ(m, pc, "next PC");
        if (h->x[0] != RUBBISH)
            differ(m, pc, "slot 0");
    }
    return next;
}

/* ECALL and EBREAK, which no block covers. True where the guest goes on; else its status. */
static bool system_call(struct hart *h, struct machine *m, uint32_t instruction, uint64_t *status)
{
    uint8_t *text = at(m, h->x[11], h->x[12]);
    if (instruction == 0x73 && h->x[17] == 64 && text) {
        fwrite(text, 1, h->x[12], stdout);
        h->x[10] = h->x[12];
        return true;
    }
    *status = instruction == 0x73 && h->x[17] == 93 ? h->x[10] : instruction == 0x100073 ? 0 : 255;
    return false;
}

/* Runs the program to its end: its status. */
static uint64_t dispatch(struct hart *h, struct machine *m, struct blocks *b, uint64_t pc)
{
    uint64_t runs = 0, instructions = 0, status = 0, refusal = 0;
    while (!m->fault) {
        uint64_t from = pc - m->base, rest = from < m->size ? m->size - from : 0,
                 length = rest < WINDOW ? rest : WINDOW;
        const uint8_t *guest = rest ? m->bytes + from : b->output;
        const uint8_t *code = block_at(b, guest, length, pc, &refusal);
        if (code) {
            struct hilofanur_next next = run(h, m, code, guest, length, pc);
            pc = next.pc;
            instructions += next.count;
            runs++;
        } else if (refusal == 5 && length >= 4) {
            if (!system_call(h, m, field(guest, 0, 4), &status))
                break;
            pc += 4;
        } else {
            m->fault = refusal == 15 ? "the store is too small for a block" : "translate refused";
        }
    }
    if (m->fault)
        fprintf(stderr, "%s at %" PRIx64 "\n", m->fault, pc);
    fprintf(stderr,
        "jumped: %" PRIu64 " times, %" PRIu64 " guest instructions, %" PRIu64 " loads, %" PRIu64 " stores\n", runs,
        instructions, m->loads, m->stores);
    return status;
}

/* The options; the number of the first word that is none, or 0 where one is unknown. */
static int options(int argc, char **argv, bool *check, bool *twice, size_t *length)
{
    int n = 1;
    for (; n < argc && !strncmp(argv[n], "--", 2); n++) {
        if (!strcmp(argv[n], "--check"))
            *check = true;
        else if (!strcmp(argv[n], "--twice"))
            *twice = true;
        else if (!strcmp(argv[n], "--store") && n + 1 < argc)
            *length = strtoull(argv[++n], NULL, 0);
        else
            return 0;
    }
    return n;
}

int main(int argc, char **argv)
{
    static struct hart h;
    static struct machine m;
    static struct blocks b = {.length = 1 << 20};
    bool twice = false;
    int n = options(argc, argv, &m.check, &twice, &b.length);
    if (!n || n + 1 != argc || b.length > MOST) {
        fprintf(stderr, "jump [--check] [--twice] [--store BYTES] FILE\n");
        return 2;
    }
    b.store = store_of(b.length, twice), b.once = store_of(sizeof b.output, twice);
    hilofanur_index_empty(b.index);
    uint64_t pc = load(argv[n], &m);
    h.x[2] = (m.base + m.size - 16) & ~UINT64_C(15);
    uint64_t status = dispatch(&h, &m, &b, pc);
    fprintf(stderr, "blocks: %" PRIu64 " translated into %" PRIu64 " words, %" PRIu64 " found, %" PRIu64,
        b.translated, b.words, b.found, b.fences);
    fprintf(stderr, " ended by FENCE.I\n");
    if (m.check)
        fprintf(stderr, "differences from the ISA: %" PRIu64 "\n", m.differences);
    return m.fault || m.differences ? 3 : (int)status;
}
