/* Hilofanur: RV64 guest blocks in, A64 words out.
 *
 * For libhilofanur.a on x86-64 and on AArch64: Linux, little-endian, 64-bit pointers. docs/USING.md says at length
 * how a dispatcher uses it; this is the short form.
 *
 * Each function but hilofanur_index_empty answers by a struct. Its refusal is 0 where the call was accepted; else
 * it is the lowest number that applies, the answer's other numbers are 0, but for the offset beside 13, and every
 * lent byte is as it was:
 *
 *    1  slot offset not a multiple of 8 or above 32,512
 *    2  limit 0
 *    3  odd PC
 *    4  the first instruction lacks a halfword
 *    5  the first instruction is neither inline nor helper (RV64 run: not inline)
 *    6  the output is shorter than the block's bytes
 *    7  used exceeds the store
 *    8  the start plus the code length exceeds the store
 *   10  block length not a multiple of 4
 *   11  memory base plus memory length exceeds 2^64
 *   12  block length not a multiple of 4 or above 2^32
 *   13  a word outside the forms
 *   14  the output is shorter than the listing
 *   15  the code's length is zero, not a multiple of 4 or beyond the store
 *   16  no block under this key
 *
 * 9 is not used.
 *
 * Bytes are lent by a pointer and their number, which is below 2^63. A pointer is never null, even where the number
 * is 0; it needs no alignment. Bytes that a call may write overlap no others that it is lent. No pointer is kept
 * after the call, no state is kept between calls, and every call ends. Calls on different bytes may run in
 * different threads; calls on one index take turns.
 *
 * The archive calls memcpy and memset and nothing else. It is position-independent, has no unwind tables and no
 * writable data. On x86-64 it uses SSE2 and the red zone; on AArch64 it is Armv8.0. Translate takes 16 KB of stack,
 * 4 KB where the limit is at most 8, the others 1 KB, on both. A dynamic linker that binds memcpy or memset at its
 * first call takes its own stack there, 3 KB on x86-64.
 *
 * How a block is called, on an Arm processor or by A64 run: from word 0, with X30 the address to return to and X0
 * such that register n has its slot, eight little-endian bytes, at X0 plus slot_offset plus 8n, a multiple of 8.
 * The slots are in memory and apart from the block's words. Slot 0 may hold anything: it is neither read nor
 * written. On an Arm processor that is a C function (AAPCS64), and so is a helper: hilofanur_block,
 * hilofanur_memory_helper and hilofanur_helper below.
 *
 * A block that no helper ends returns with X0 the next guest PC and X1 the guest instructions done; slots 1 to 31
 * hold the registers. X9 to X17 and NZCV are lost; X2 to X8, X18 to X30, SP and all other memory are as they were.
 *
 * A block that a helper ends calls it by BLR X16, with slots 1 to 31 the registers before its instruction. SP at
 * the block's entry is a multiple of 16, and the 16 bytes below it are in memory, apart from the slots and the
 * block's words. The helper returns with X0 the next guest PC and X1 the guest instructions that it did. It may
 * change what a C function may change, and the slots. The block then returns with that X0, and with that X1 plus
 * the block's count less one.
 *
 * Before a jump:
 * - The store is executable, and never writable and executable at once.
 * - Over the bytes placed the caches are cleaned and invalidated, by __builtin___clear_cache, after the placing. A
 *   thread that did not place them itself executes an ISB before it runs them.
 * - No block is placed over one that some thread runs.
 * - No exception and no longjmp passes through a block.
 *
 * By A64 run a block that a helper ends ends as HILOFANUR_CALLED with `steps` words done. After the helper's work,
 * which the caller does on state and memory, hilofanur_a64_run_from with first = steps goes on.
 */
#ifndef HILOFANUR_H
#define HILOFANUR_H

#include <stdbool.h>
#include <stddef.h>
#include <stdint.h>

#ifdef __cplusplus
extern "C" {
#endif

/* Raised with every change of this file's functions, types or numbers. */
#define HILOFANUR_VERSION "0.3.0"

/* The most bytes of a block: 40 words for each of 64 instructions, and 6. */
#define HILOFANUR_LONGEST_BLOCK 10264
/* The most bytes of a block at a limit, which above 64 counts as 64: an output of so many is long enough. The limit is
 * a uint32_t, as in hilofanur_translate; it is written twice here, and so has no side effects. */
#define HILOFANUR_BLOCK_BYTES(limit) \
    ((size_t)4 * (40 * ((uint32_t)(limit) < 64 ? (size_t)(uint32_t)(limit) : 64) + 6))
/* 32 registers of 8 bytes. */
#define HILOFANUR_REGISTERS 256
/* X0 to X30, SP and NZCV, 8 bytes each. */
#define HILOFANUR_STATE 264
/* The bytes of the longest line of a listing. */
#define HILOFANUR_LONGEST_LINE 45
/* The bytes of an index. */
#define HILOFANUR_INDEX_BYTES 45056

/* What ended a block. On HILOFANUR_DROP the guest may have changed its code: keep the block out of the index, and
 * empty the index. */
enum hilofanur_end_kind {
    HILOFANUR_PLAIN = 1,  /* a jump or branch, the limit, or an instruction that is not covered or not fetched */
    HILOFANUR_HELPER = 2, /* a helper instruction: the block calls the helper */
    HILOFANUR_DROP = 3    /* FENCE.I, as the limit's last instruction too */
};

#ifdef __aarch64__
/* What a block and a helper return, in X0 and X1. */
struct hilofanur_next {
    uint64_t pc;    /* the next guest PC */
    uint64_t count; /* the guest instructions done */
};

/* A placed block. x0: slot_offset bytes below slot 0. a to e go to the helper; where none ends the block they are
 * not used. */
typedef struct hilofanur_next hilofanur_block(void *x0, uint64_t a, uint64_t b, uint64_t c, uint64_t d, uint64_t e);

/* The helper for loads and stores of 32 bits. operation: 0 to 6 are LB LH LW LD LBU LHU LWU, 16 to 19 SB SH SW SD.
 * rd: bits 11 to 7 of the instruction. value: what to store, else 0. pc: the instruction's. */
typedef struct hilofanur_next hilofanur_memory_helper(
    uint64_t a, uint64_t b, uint64_t c, uint64_t operation, uint64_t rd, uint64_t value, uint64_t address,
    uint64_t pc);

/* The helper for other instructions of 32 bits, and the one for those of 16 bits. They find registers in the slots,
 * but for register 0, which is 0: C.SWSP and C.SDSP may store it. */
typedef struct hilofanur_next hilofanur_helper(
    uint64_t a, uint64_t b, uint64_t c, uint64_t d, uint64_t e, uint64_t instruction, uint64_t pc);
#endif

struct hilofanur_translate_answer {
    uint32_t refusal;
    uint32_t length; /* the block's bytes */
    uint32_t count;  /* its guest instructions */
    uint32_t end;    /* enum hilofanur_end_kind, 0 where refused */
};

/* Translate: the block that starts at pc, written at the front of output; the rest of output stays.
 *
 * Inline are the instructions of RV64I, M, C and Zbb that access no memory, but not SYSTEM. Loads, stores, AMO, FP
 * loads and FP stores call a helper. So a guest may be built with -march=rv64gc_zbb; the rest of its instructions, FP
 * arithmetic and SYSTEM, end a block before them, and the caller does them.
 *
 * guest: little-endian halfwords, the first at pc; four bytes for each instruction of the limit are enough, 256 at
 * the most. limit: the most instructions; above 64 it counts as 64. ignore_ebreak: C.EBREAK does nothing.
 * slot_offset: register n has its slot at X0 plus slot_offset plus 8n. memory_helper, helper32, helper16: the
 * addresses that the block calls for loads and stores of 32 bits, for other helper instructions of 32 bits, and for
 * those of 16 bits. Refusals 1 to 6; with HILOFANUR_BLOCK_BYTES(limit) bytes of output, and so with
 * HILOFANUR_LONGEST_BLOCK, 6 does not occur.
 *
 * FENCE.I, whatever its fields beside opcode and funct3, ends the block: it is counted, and the next PC is the one
 * after it. FENCE goes on.
 */
struct hilofanur_translate_answer hilofanur_translate(
    const uint8_t *guest, size_t guest_length, uint64_t pc, uint32_t limit, bool ignore_ebreak, uint64_t slot_offset,
    uint64_t memory_helper, uint64_t helper32, uint64_t helper16, uint8_t *output, size_t output_length);

struct hilofanur_place_answer {
    uint64_t refusal;
    uint64_t start; /* where the code starts in the store */
    uint64_t used;  /* how much of the store is then used */
};

/* Place: copies code into store at used, rounded up to a multiple of 4; other bytes stay. Refusals 7 and 8. */
struct hilofanur_place_answer hilofanur_place(
    uint8_t *store, size_t store_length, uint64_t used, const uint8_t *code, size_t code_length);

struct hilofanur_rv64_run_answer {
    uint32_t refusal;
    uint32_t count;   /* the instructions done */
    uint64_t next_pc; /* the PC after them */
};

/* RV64 run: does the guest's block on the registers, as the ISA says. It stops where translation would, after
 * FENCE.I too, which is counted, and before a helper instruction. registers: HILOFANUR_REGISTERS bytes, each
 * register little-endian; register 0's are read as 0, whatever they are, and come back as 0. Refusals 2 to 5.
 */
struct hilofanur_rv64_run_answer hilofanur_rv64_run(
    const uint8_t *guest, size_t guest_length, uint64_t pc, uint32_t limit, bool ignore_ebreak, uint8_t *registers);

enum hilofanur_end {
    HILOFANUR_OFF_THE_END = 1,
    HILOFANUR_SPENT = 2,      /* the budget is used */
    HILOFANUR_UNREADABLE = 3, /* a word outside the 30 forms */
    HILOFANUR_FAULT = 4,      /* an access not wholly in memory, not a multiple of 8, or by SP not a multiple of 16 */
    HILOFANUR_RETURNED = 5,   /* RET */
    HILOFANUR_CALLED = 6      /* BLR, with the next word's address in X30 */
};

struct hilofanur_a64_run_answer {
    uint32_t refusal;
    uint32_t end; /* enum hilofanur_end, 0 where refused */
    uint64_t steps;
};

/* A64 run: does the words of block, which stand at address, as the Arm manual says, at most budget of them.
 *
 * address: where the block's words would stand; only X30 at a call depends on it. budget: for a block of
 * Translate's, block_length / 4 is enough, to the call and again from it. state: HILOFANUR_STATE bytes, each number
 * little-endian; of NZCV the low four bits, N highest; higher bits are ignored and come out 0. memory: bytes, the
 * first at base. Refusals 10 and 11.
 */
struct hilofanur_a64_run_answer hilofanur_a64_run(
    const uint8_t *block, size_t block_length, uint64_t address, uint8_t *state, uint64_t budget, uint8_t *memory,
    size_t memory_length, uint64_t base);

/* A64 run from: goes on after a call, from the state that the caller gives, at the word numbered first, counted
 * from 0.
 *
 * address stays that of word 0; steps counts from 0, the words of this call. Where first is at or beyond the number
 * of words it ends off the end with no step, whatever the budget. All else as in A64 run. Refusals 10 and 11,
 * whatever first.
 */
struct hilofanur_a64_run_answer hilofanur_a64_run_from(
    const uint8_t *block, size_t block_length, uint64_t address, uint64_t first, uint8_t *state, uint64_t budget,
    uint8_t *memory, size_t memory_length, uint64_t base);

struct hilofanur_list_answer {
    uint64_t refusal;
    uint64_t length; /* the listing's bytes */
    uint64_t offset; /* beside refusal 13 the byte offset of some word outside the forms, else 0 */
};

/* List: the words of block as text, written at the front of output; the rest of output stays. A line for each word:
 *
 *   00000000 d2820040 movz x0, #4098, lsl #0
 *
 * its byte offset and the word, eight hexadecimal digits each, the Arm manual's unaliased assembler form, a line
 * feed. No zero byte ends the text. HILOFANUR_LONGEST_LINE bytes for each word are enough. The forms are the 30
 * that A64 run reads. Refusals 12 to 14.
 */
struct hilofanur_list_answer hilofanur_list(
    const uint8_t *block, size_t block_length, uint8_t *output, size_t output_length);

/* The index: up to 512 blocks by key, which is an address space number and a PC, in HILOFANUR_INDEX_BYTES bytes. A
 * block has its start and length in the index's store, and its count of guest instructions. The space tells apart
 * guests, or address spaces of one, that have different code at one PC: any number that the caller keeps to, such
 * as SATP's.
 *
 * The caller makes an index empty before its first use, then hands it to the three calls below and to nothing else,
 * and always with the same store, of the same length, which nothing but these calls changes. Then a lookup answers
 * the block placed last under its key, unless that was dropped or the index emptied since, and the store holds that
 * block's code. Whatever bytes the index holds, a call ends and touches no byte beyond those lent.
 *
 * A block that ends as HILOFANUR_DROP is run from elsewhere and not placed: so it is translated each time the guest
 * comes to it, and each time the caller empties the index. Then no block from before the guest's FENCE.I is found
 * after it.
 */

/* Empties the index: no key has a block. */
void hilofanur_index_empty(uint8_t *index);

struct hilofanur_index_place_answer {
    uint64_t refusal;
    uint64_t start; /* where the code starts in the store */
};

/* Places code in the store, under a key: after the block placed last, or at the store's front where the rest is too
 * short or the index is empty. This is chosen first. Then are dropped the block under the same key, every block
 * that shares a byte with the new one, and, if 512 are still left, the oldest; no other. Other bytes of the store
 * stay. Refusal 15.
 */
struct hilofanur_index_place_answer hilofanur_index_place(
    uint8_t *index, uint8_t *store, size_t store_length, uint64_t space, uint64_t pc, uint8_t count,
    const uint8_t *code, size_t code_length);

struct hilofanur_index_lookup_answer {
    uint64_t refusal;
    uint64_t start;  /* where its code starts in the store */
    uint64_t length; /* the code's bytes */
    uint64_t count;  /* as it was placed */
};

/* Looks up the block under a key. Refusal 16. */
struct hilofanur_index_lookup_answer hilofanur_index_lookup(const uint8_t *index, uint64_t space, uint64_t pc);

#ifdef __cplusplus
}
#endif

#endif
