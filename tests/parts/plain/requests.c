/* Beside a program, by LD_PRELOAD: the heap of the C library, whose requests number FIRST to LAST
 * are refused, counted from 1. Each request is a byte on descriptor 9: '.' where it is granted, 'x'
 * where it is refused. */
#include <errno.h>
#include <stdlib.h>
#include <unistd.h>

extern void *__libc_malloc(size_t bytes);
extern void *__libc_calloc(size_t count, size_t bytes);
extern void *__libc_realloc(void *old, size_t bytes);
extern void *__libc_memalign(size_t align, size_t bytes);

static unsigned long number_of(const char *name)
{
    const char *digits = getenv(name);
    return digits == NULL ? 0 : strtoul(digits, NULL, 10);
}

static int refuses_next(void)
{
    static unsigned long requests = 0;
    int refuses = ++requests >= number_of("FIRST") && requests <= number_of("LAST");
    if (write(9, refuses ? "x" : ".", 1) != 1)
        _exit(70);
    if (refuses)
        errno = ENOMEM;
    return refuses;
}

void *malloc(size_t bytes)
{
    return refuses_next() ? NULL : __libc_malloc(bytes);
}

void *calloc(size_t count, size_t bytes)
{
    return refuses_next() ? NULL : __libc_calloc(count, bytes);
}

void *realloc(void *old, size_t bytes)
{
    return refuses_next() ? NULL : __libc_realloc(old, bytes);
}

int posix_memalign(void **block, size_t align, size_t bytes)
{
    if (refuses_next())
        return ENOMEM;
    *block = __libc_memalign(align, bytes);
    return *block == NULL ? ENOMEM : 0;
}
