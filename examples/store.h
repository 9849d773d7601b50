/* A store of words that is writable or executable, never both. Linux. */
#ifndef STORE_H
#define STORE_H

#include <stdbool.h>
#include <stdint.h>
#include <stdio.h>
#include <stdlib.h>
#include <sys/mman.h>
#include <unistd.h>

struct store {
    uint8_t *write, *run; /* the same bytes: to write, and to run */
    size_t length;        /* whole pages */
    bool twice;           /* mapped twice; else once, and mprotect changes what may be done */
};

static void failed(const char *what)
{
    perror(what);
    exit(2);
}

/* twice: one mapping to write and one to run, so that other threads may run blocks while one is placed. qemu-user
 * before 8.1 does not see that words change in such a store. */
static struct store store_of(size_t length, bool twice)
{
    size_t page = sysconf(_SC_PAGESIZE);
    struct store s = {.length = (length + page - 1) / page * page, .twice = twice};
    int file = twice ? memfd_create("blocks", 0) : -1, flags = twice ? MAP_SHARED : MAP_PRIVATE | MAP_ANONYMOUS;
    if (twice && (file < 0 || ftruncate(file, s.length)))
        failed("memfd_create");
    s.write = s.run = mmap(NULL, s.length, PROT_READ | PROT_WRITE, flags, file, 0);
    if (twice)
        s.run = mmap(NULL, s.length, PROT_READ | PROT_EXEC, flags, file, 0);
    if (s.write == MAP_FAILED || s.run == MAP_FAILED)
        failed("mmap");
    return s;
}

static void store_open(struct store *s)
{
    if (!s->twice && mprotect(s->write, s->length, PROT_READ | PROT_WRITE))
        failed("mprotect");
}

/* The words at start can then be run by this thread. */
static void store_close(struct store *s, size_t start, size_t length)
{
    if (!s->twice && mprotect(s->run, s->length, PROT_READ | PROT_EXEC))
        failed("mprotect");
    if (s->twice) /* the data cache is cleaned by the address that was written, the other invalidated by the one
                     that runs */
        __builtin___clear_cache((char *)s->write + start, (char *)s->write + start + length);
    __builtin___clear_cache((char *)s->run + start, (char *)s->run + start + length);
}

#endif
