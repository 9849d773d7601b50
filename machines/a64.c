// Runs pieces of A64 code, one after the other, and writes the state that each leaves.
// Standard input holds requests, standard output gets as many outcomes.
// The code stands among BRKs, so the machine traps wherever a piece ends or jumps to.
// A signal handler takes the outcome down, sets up the next piece, and returns into it.

#define _GNU_SOURCE
#include <signal.h>
#include <stdint.h>
#include <stdio.h>
#include <stdlib.h>
#include <string.h>
#include <sys/mman.h>
#include <ucontext.h>
#include <unistd.h>

// The most requests, and the most bytes of a request's code and memory; a64.py's, where the compiler is told nothing else.
#ifndef MOST
#define MOST 100000
#define CODE 64
#define MEMORY 64
#endif

struct request {
    uint64_t address;
    uint64_t straight; // bytes in front of a BLR or RET
    uint64_t length;   // bytes in all
    uint8_t code[CODE];
    uint64_t x[31];
    uint64_t sp;
    uint64_t nzcv; // N is bit 3
    uint64_t base;
    uint64_t size; // of memory
    uint8_t memory[MEMORY];
};

struct outcome {
    uint64_t signal;
    uint64_t pc;
    uint64_t x[31];
    uint64_t sp;
    uint64_t nzcv;
    uint64_t outside;    // bytes near the memory that changed
    uint64_t before[31]; // the registers in front of a BLR or RET
    uint8_t memory[MEMORY];
};

enum { PAGE = 4096, PAGES = 64, FAILED = 255, AROUND = 0xA5 };

static struct request requests[MOST];
static struct outcome outcomes[MOST];
static size_t count, at;
static enum { FIRST, STRAIGHT, JUMP } phase;

static void fail(const char *why)
{
    write(2, why, strlen(why));
    _exit(1);
}

static void fill(uint64_t from, uint64_t bytes)
{
    uint32_t *p = (uint32_t *)from;
    for (uint64_t i = 0; i < bytes / 4; i++)
        p[i] = 0xD4200000; // BRK 0
}

// Code pages hold BRKs; memory pages cannot be executed.
static void map(uint64_t page, int executable)
{
    static uint64_t mapped[PAGES];
    static int known;
    for (int i = 0; i < known; i++)
        if (mapped[i] == page)
            return;
    if (known == PAGES)
        fail("too many pages\n");
    void *p = mmap((void *)page, PAGE, PROT_READ | PROT_WRITE | (executable ? PROT_EXEC : 0),
                   MAP_PRIVATE | MAP_ANONYMOUS | MAP_FIXED, -1, 0);
    if (p != (void *)page)
        fail("cannot map a page\n");
    if (executable)
        fill(page, PAGE);
    mapped[known++] = page;
}

static void map_around(uint64_t where, int executable)
{
    for (int i = -1; i <= 1; i++)
        map((where & -PAGE) + (int64_t)i * PAGE, executable);
}

static void put(uint64_t where, const uint8_t *code, uint64_t bytes)
{
    memcpy((void *)where, code, bytes);
    __builtin___clear_cache((char *)where, (char *)where + bytes);
}

static void erase(uint64_t where, uint64_t bytes)
{
    fill(where, bytes);
    __builtin___clear_cache((char *)where, (char *)where + bytes);
}

static void put_memory(const struct request *r)
{
    if (r->size == 0)
        return;
    map_around(r->base, 0);
    memset((void *)((r->base & -PAGE) - PAGE), AROUND, 3 * PAGE);
    memcpy((void *)r->base, r->memory, r->size);
}

static void take_memory(const struct request *r, struct outcome *o)
{
    if (r->size == 0)
        return;
    const uint8_t *bytes = (const uint8_t *)((r->base & -PAGE) - PAGE);
    uint64_t first = r->base - (uint64_t)bytes;
    for (uint64_t i = 0; i < 3 * PAGE; i++)
        if (i < first || i >= first + r->size)
            o->outside += bytes[i] != AROUND;
    memcpy(o->memory, (void *)r->base, r->size);
}

// The straight part runs first and alone; the BLR or RET then stands alone too, so that a jump back traps.
static void handler(int signal, siginfo_t *info, void *context)
{
    mcontext_t *m = &((ucontext_t *)context)->uc_mcontext;
    const struct request *r = &requests[at];
    struct outcome *o = &outcomes[at];
    (void)info;
    if (phase == STRAIGHT) {
        erase(r->address, r->straight);
        memcpy(o->before, m->regs, sizeof o->before);
        if (signal != SIGTRAP || m->pc != r->address + r->straight) {
            signal = FAILED;
        } else if (r->length > r->straight) {
            put(m->pc, r->code + r->straight, r->length - r->straight);
            phase = JUMP;
            return;
        }
    }
    if (phase == JUMP)
        erase(r->address + r->straight, r->length - r->straight);
    if (phase != FIRST) {
        o->signal = signal;
        o->pc = m->pc;
        o->sp = m->sp;
        o->nzcv = m->pstate >> 28;
        memcpy(o->x, m->regs, sizeof o->x);
        take_memory(r, o);
        at++;
    }
    if (at == count) {
        fwrite(outcomes, sizeof outcomes[0], count, stdout);
        fflush(stdout);
        _exit(0);
    }
    r = &requests[at];
    map_around(r->address, 1);
    put_memory(r);
    memcpy(m->regs, r->x, sizeof r->x);
    m->sp = r->sp;
    m->pstate = (m->pstate & 0x0FFFFFFF) | r->nzcv << 28;
    m->pc = r->address;
    phase = r->straight ? STRAIGHT : JUMP;
    put(r->address, r->code, r->straight ? r->straight : r->length);
    if (!r->straight)
        memcpy(outcomes[at].before, r->x, sizeof r->x);
    alarm(2);
}

int main(void)
{
    static uint8_t stack[1 << 16];
    stack_t alternate = {.ss_sp = stack, .ss_size = sizeof stack};
    struct sigaction action = {.sa_sigaction = handler, .sa_flags = SA_SIGINFO | SA_ONSTACK};
    const int signals[] = {SIGTRAP, SIGILL, SIGSEGV, SIGBUS, SIGALRM};

    sigfillset(&action.sa_mask);
    sigaltstack(&alternate, NULL);
    for (size_t i = 0; i < sizeof signals / sizeof signals[0]; i++)
        sigaction(signals[i], &action, NULL);
    count = fread(requests, sizeof requests[0], MOST, stdin);
    if (count == 0 || getchar() != EOF)
        fail("no requests, or too many\n");
    __asm__ volatile("brk 0");
    return 1;
}
