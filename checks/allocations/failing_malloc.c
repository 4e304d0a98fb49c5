/* Makes allocations of a program that it is loaded into fail: the one with the number FAIL_AT, counted from 1,
   and with FAIL_ON those that follow. It writes a mark to descriptor 3 for each. */
#define _GNU_SOURCE
#include <errno.h>
#include <stddef.h>
#include <stdlib.h>
#include <unistd.h>

extern void *__libc_malloc(size_t size);
extern void *__libc_calloc(size_t count, size_t size);
extern void *__libc_realloc(void *old, size_t size);
extern void *__libc_memalign(size_t alignment, size_t size);

static int refused(void)
{
    static long number, at = -1;
    static int on;
    if (at < 0) {
        const char *text = getenv("FAIL_AT");
        at = text ? atol(text) : 0;
        on = getenv("FAIL_ON") != NULL;
    }
    number++;
    if (at == 0 || number < at || (number > at && !on))
        return 0;
    if (write(3, "!", 1) != 1)
        _exit(99);
    errno = ENOMEM;
    return 1;
}

void *malloc(size_t size)
{
    return refused() ? NULL : __libc_malloc(size);
}

void *calloc(size_t count, size_t size)
{
    return refused() ? NULL : __libc_calloc(count, size);
}

void *realloc(void *old, size_t size)
{
    return refused() ? NULL : __libc_realloc(old, size);
}

void *aligned_alloc(size_t alignment, size_t size)
{
    return refused() ? NULL : __libc_memalign(alignment, size);
}

int posix_memalign(void **place, size_t alignment, size_t size)
{
    *place = refused() ? NULL : __libc_memalign(alignment, size);
    return *place == NULL ? ENOMEM : 0;
}
