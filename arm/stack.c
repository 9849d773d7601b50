/* The stack that each operation takes: a painted stack, its deepest changed byte over many seeded calls. Status 1
 * where Translate takes more than 16 KB, or 4 KB with a limit of 8, or another more than 1 KB, as the header says. */
#include "draw.h"

#include <stdio.h>
#include <ucontext.h>

static uint8_t stack[1 << 17] __attribute__((aligned(16)));
static uint8_t guest[300], output[HILOFANUR_LONGEST_BLOCK], memory[2048], state[HILOFANUR_STATE],
    registers[HILOFANUR_REGISTERS];
static uint8_t index_bytes[HILOFANUR_INDEX_BYTES], store[2 * HILOFANUR_LONGEST_BLOCK],
    text[HILOFANUR_LONGEST_BLOCK / 4 * HILOFANUR_LONGEST_LINE];
static uint8_t *top;
static ucontext_t here, there;
static int operation;

static __attribute__((noinline)) void call(void)
{
    static struct hilofanur_translate_answer t;
    static struct hilofanur_a64_run_answer a;
    static struct hilofanur_rv64_run_answer r;
    static struct hilofanur_list_answer l;
    static struct hilofanur_place_answer p;
    static struct hilofanur_index_place_answer ip;
    static struct hilofanur_index_lookup_answer il;
#ifdef __aarch64__
    __asm__ volatile("mov %0, sp" : "=r"(top) : : "memory");
#else
    __asm__ volatile("mov %%rsp, %0" : "=r"(top) : : "memory");
#endif
    switch (operation) {
    case 0:
        t = hilofanur_translate(guest, sizeof guest, 0x1000, 64, true, 64, -1, -2, -3, output, sizeof output);
        break;
    case 1: p = hilofanur_place(store, sizeof store, 5, output, sizeof output); break;
    case 2: r = hilofanur_rv64_run(guest, sizeof guest, 0x1000, 64, true, registers); break;
    case 3: a = hilofanur_a64_run(output, t.length, 0x4000, state, 2000, memory, sizeof memory, 0x8000); break;
    case 4:
        a = hilofanur_a64_run_from(output, t.length, 0x4000, 0, state, 2000, memory, sizeof memory, 0x8000);
        break;
    case 5: l = hilofanur_list(output, t.length, text, sizeof text); break;
    case 6: hilofanur_index_empty(index_bytes); break;
    case 7:
        ip = hilofanur_index_place(index_bytes, store, sizeof store, 1, below(900), 9, output, 4 + 4 * below(9));
        break;
    case 8: il = hilofanur_index_lookup(index_bytes, 1, below(900)); break;
    case 9:
        t = hilofanur_translate(guest, sizeof guest, 0x1000, 8, true, 64, -1, -2, -3, output, sizeof output);
        break;
    }
    __asm__ volatile("" ::"r"(&t), "r"(&a), "r"(&r), "r"(&l), "r"(&p), "r"(&ip), "r"(&il)
                     : "memory"); /* no tail call */
}

/* How deep one call goes. */
static size_t depth(void)
{
    size_t painted = 32768, low = sizeof stack - painted;
    memset(stack + low, 0xA5, painted);
    getcontext(&there);
    there.uc_stack.ss_sp = stack, there.uc_stack.ss_size = sizeof stack, there.uc_link = &here;
    makecontext(&there, call, 0);
    swapcontext(&here, &there);
    while (low < sizeof stack && stack[low] == 0xA5)
        low++;
    return top > stack + low ? top - (stack + low) : 0; /* a leaf may take none */
}

int main(void)
{
    static const char *names[] = {"translate", "place", "rv64_run", "a64_run", "a64_run_from", "list", "index_empty",
        "index_place", "index_lookup", "translate, limit 8"};
    size_t deepest[10] = {0};
    bool above = false;
    for (int round = 0; round < 3000; round++) {
        seed = round;
        guest_code(guest, sizeof guest);
        for (operation = 0; operation < 10; operation++) {
            if (operation == 6 && round % 1000)
                continue;
            uint64_t x0 = 0x8000 + 64, sp = 0x8000 + sizeof memory;
            memcpy(state, &x0, 8);
            memcpy(state + 8 * 31, &sp, 8);
            size_t used = depth();
            deepest[operation] = used > deepest[operation] ? used : deepest[operation];
        }
    }
    for (int n = 0; n < 10; n++) {
        printf("%s %zu\n", names[n], deepest[n]);
        above |= deepest[n] > (n == 0 ? 16384 : n == 9 ? 4096 : 1024);
    }
    return above;
}
