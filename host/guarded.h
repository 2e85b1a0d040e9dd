/* Buffers that lie right against memory that may not be touched, for host/caller.c and host/pools_caller.c. */
#ifndef GUARDED_H
#define GUARDED_H

#include <signal.h>
#include <stdint.h>
#include <stdio.h>
#include <stdlib.h>
#include <sys/mman.h>
#include <unistd.h>

enum side { START_AT_GUARD, END_AT_GUARD };

struct guarded {
    uint8_t *map;   /* the pages, with a guard page before and after them */
    size_t bytes;   /* all of it */
    uint8_t *data;  /* the buffer */
};

static void touched(int signal)
{
    static const char text[] = "wrong: a byte outside the buffers was touched\n";
    (void)signal;
    if (write(2, text, sizeof text - 1) < 0)
        _exit(2);
    _exit(1);
}

static void guard_signals(void)
{
    signal(SIGSEGV, touched);
    signal(SIGBUS, touched);
}

/* A buffer of `size` bytes whose first byte follows, or whose last byte precedes, a guard page. */
static struct guarded guarded(size_t size, enum side side)
{
    size_t page = (size_t)sysconf(_SC_PAGESIZE);
    size_t inner = (size + page - 1) / page * page;
    struct guarded got;

    got.bytes = inner + 2 * page;
    got.map = mmap(NULL, got.bytes, PROT_NONE, MAP_PRIVATE | MAP_ANONYMOUS, -1, 0);
    if (got.map == MAP_FAILED
        || (inner && mprotect(got.map + page, inner, PROT_READ | PROT_WRITE) != 0)) {
        perror("guard pages");
        exit(2);
    }
    got.data = got.map + page + (side == END_AT_GUARD ? inner - size : 0);
    return got;
}

/* From now on the buffer may only be read. */
static void only_read(const struct guarded *buffer)
{
    size_t page = (size_t)sysconf(_SC_PAGESIZE);

    if (buffer->bytes > 2 * page)
        mprotect(buffer->map + page, buffer->bytes - 2 * page, PROT_READ);
}

static void let_go(const struct guarded *buffer)
{
    munmap(buffer->map, buffer->bytes);
}

#endif
