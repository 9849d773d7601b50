// Runs pieces of RV64 code, one after the other, and writes the registers and PC that each leaves.
// Standard input holds requests, standard output gets as many outcomes.
// The code stands among C.EBREAKs, so the machine traps wherever a piece ends or jumps to.
// A signal handler takes the outcome down, sets up the next piece, and returns into it.

#define _GNU_SOURCE
#include <signal.h>
#include <stdint.h>
#include <stdio.h>
#include <stdlib.h>
#include <string.h>
#include <sys/mman.h>
#include <ucontext.h>
#include <unistd.h>

struct request {
    uint64_t pc;
    uint64_t straight; // bytes in front of the jump or branch
    uint64_t length;   // bytes in all
    uint8_t code[64];
    uint64_t x[32]; // x[0] is left alone
};

struct outcome {
    uint64_t signal;
    uint64_t pc;
    uint64_t x[32];
    uint64_t before[32]; // the registers in front of the jump or branch
};

enum { MOST = 100000, PAGE = 4096, PAGES = 64, FAILED = 255 };

static struct request requests[MOST];
static struct outcome outcomes[MOST];
static size_t count, at;
static enum { FIRST, STRAIGHT, JUMP } phase;
void *thread_pointer;

static void fail(const char *why)
{
    write(2, why, strlen(why));
    _exit(1);
}

static void fill(uint64_t from, uint64_t bytes)
{
    uint16_t *p = (uint16_t *)from;
    for (uint64_t i = 0; i < bytes / 2; i++)
        p[i] = 0x9002; // C.EBREAK
}

static void map(uint64_t page)
{
    static uint64_t mapped[PAGES];
    static int known;
    for (int i = 0; i < known; i++)
        if (mapped[i] == page)
            return;
    if (known == PAGES)
        fail("too many pages\n");
    void *p = mmap((void *)page, PAGE, PROT_READ | PROT_WRITE | PROT_EXEC,
                   MAP_PRIVATE | MAP_ANONYMOUS | MAP_FIXED, -1, 0);
    if (p != (void *)page)
        fail("cannot map a page\n");
    fill(page, PAGE);
    mapped[known++] = page;
}

static void put(uint64_t where, const uint8_t *code, uint64_t bytes)
{
    memcpy((void *)where, code, bytes);
    __builtin___clear_cache((char *)where, (char *)where + bytes);
}

static void erase(uint64_t where, uint64_t bytes)
{
    fill(where, bytes);
    __builtin___clear_cache((char *)where, (char *)where + bytes);
}

// The straight part runs first and alone; the jump then stands alone too, so that a jump back traps.
void handler(int signal, siginfo_t *info, void *context)
{
    uint64_t *g = ((ucontext_t *)context)->uc_mcontext.__gregs;
    const struct request *r = &requests[at];
    (void)info;
    if (phase == STRAIGHT) {
        erase(r->pc, r->straight);
        memcpy(outcomes[at].before, g, sizeof outcomes[at].before);
        if (signal != SIGTRAP || g[0] != r->pc + r->straight) {
            signal = FAILED;
        } else if (r->length > r->straight) {
            put(g[0], r->code + r->straight, r->length - r->straight);
            phase = JUMP;
            return;
        }
    }
    if (phase == JUMP)
        erase(r->pc + r->straight, r->length - r->straight);
    if (phase != FIRST) {
        outcomes[at].signal = signal;
        outcomes[at].pc = g[0];
        memcpy(outcomes[at].x, g, sizeof outcomes[at].x);
        at++;
    }
    if (at == count) {
        fwrite(outcomes, sizeof outcomes[0], count, stdout);
        fflush(stdout);
        _exit(0);
    }
    r = &requests[at];
    for (int i = -1; i <= 1; i++)
        map((r->pc & -PAGE) + (int64_t)i * PAGE);
    memcpy(g + 1, r->x + 1, 31 * sizeof r->x[1]);
    g[0] = r->pc;
    phase = r->straight ? STRAIGHT : JUMP;
    put(r->pc, r->code, r->straight ? r->straight : r->length);
    if (!r->straight)
        memcpy(outcomes[at].before, r->x, sizeof r->x);
    alarm(2);
}

// gp and tp hold a case's numbers when a signal comes: the handler needs its own.
__attribute__((naked)) static void enter(int signal, siginfo_t *info, void *context)
{
    __asm__(".option push\n.option norelax\nlla gp, __global_pointer$\n.option pop\n"
            "lla t0, thread_pointer\nld tp, 0(t0)\ntail handler");
}

int main(void)
{
    static uint8_t stack[1 << 16];
    stack_t alternate = {.ss_sp = stack, .ss_size = sizeof stack};
    struct sigaction action = {.sa_sigaction = enter, .sa_flags = SA_SIGINFO | SA_ONSTACK};
    const int signals[] = {SIGTRAP, SIGILL, SIGSEGV, SIGBUS, SIGALRM};

    __asm__("mv %0, tp" : "=r"(thread_pointer));
    sigfillset(&action.sa_mask);
    sigaltstack(&alternate, NULL);
    for (size_t i = 0; i < sizeof signals / sizeof signals[0]; i++)
        sigaction(signals[i], &action, NULL);
    count = fread(requests, sizeof requests[0], MOST, stdin);
    if (count == 0 || getchar() != EOF)
        fail("no requests, or too many\n");
    __asm__ volatile("ebreak");
    return 1;
}
