/* What the guest programs share: text, and system calls. No libc. */
#ifndef GUEST_H
#define GUEST_H

#include <stdint.h>

static char *put(char *to, const char *text)
{
    while (*text)
        *to++ = *text++;
    return to;
}

static char *put_number(char *to, uint64_t number, int digits)
{
    char text[20];
    int length = 0;
    do {
        text[length++] = '0' + number % 10;
        number /= 10;
    } while (number || length < digits);
    while (length)
        *to++ = text[--length];
    return to;
}

static long call(long number, long a, long b, long c)
{
    register long a0 __asm__("a0") = a, a1 __asm__("a1") = b, a2 __asm__("a2") = c, a7 __asm__("a7") = number;
    __asm__ volatile("ecall" : "+r"(a0) : "r"(a1), "r"(a2), "r"(a7) : "memory");
    return a0;
}

#endif
