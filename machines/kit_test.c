/*
 * Calls each function of the kit's C side and prints what it does. machines/check_arm64 runs it over the kit's own, on
 * x86-64, and over machines/kit.c, on x86-64 and on ARM64: all print the same.
 *
 * Its arguments are those that it is given back. It sets its environment itself.
 */
#define _GNU_SOURCE
#include <errno.h>
#include <stdbool.h>
#include <stddef.h>
#include <stdint.h>
#include <stdio.h>
#include <stdlib.h>
#include <string.h>
#include <sys/resource.h>
#include <sys/types.h>

struct tried {
    bool ok;
    void *p;
};

struct tried rattle_alloc(size_t size, size_t alignment);
struct tried rattle_realloc(void *p, size_t kept, size_t size, size_t alignment);
void rattle_dealloc(void *p);
int rattle_errno(void);
void rattle_set_errno(int error);
size_t rattle_arg_count(void);
ssize_t rattle_arg(size_t index, unsigned char *buffer, size_t room);
ssize_t rattle_env(const char *name, unsigned char *buffer, size_t room);
ssize_t rattle_env_at(size_t index, unsigned char *buffer, size_t room);

enum { ROOM = 16 };

/* Prints what a call that fills a buffer returned, and the buffer, whose bytes were dots before. */
static void print_filled(const char *what, size_t room, ssize_t length, const unsigned char *buffer)
{
    printf("%s in %zu: %zd %.*s\n", what, room, length, ROOM, (const char *)buffer);
}

static void heap(void)
{
    static const size_t sizes[] = { 0, 1, 15, 16, 17, 4096, 1 << 20 };

    for (size_t i = 0; i < sizeof sizes / sizeof *sizes; i++) {
        size_t size = sizes[i];
        struct tried block = rattle_alloc(size, 16);

        memset(block.p, 7, size);
        printf("alloc %zu: %d, aligned %d\n", size, block.ok, (uintptr_t)block.p % 16 == 0);
        block = rattle_realloc(block.p, size, size + 100000, 16);
        for (size_t at = 0; at < size; at++)
            if (((unsigned char *)block.p)[at] != 7)
                printf("byte %zu is lost\n", at);
        printf("realloc: %d, aligned %d\n", block.ok, (uintptr_t)block.p % 16 == 0);
        block = rattle_realloc(block.p, 0, 0, 1);
        printf("realloc to nothing: %d, null %d\n", block.ok, block.p == NULL);
        rattle_dealloc(block.p);
    }
}

/* No machine has 2^62 bytes. */
static void no_memory(void)
{
    size_t most = (size_t)1 << 62;
    struct tried block = rattle_alloc(most, 1);
    struct tried kept = rattle_alloc(3, 1);
    struct tried more;

    printf("alloc of 2^62: %d, null %d\n", block.ok, block.p == NULL);
    memcpy(kept.p, "abc", 3);
    more = rattle_realloc(kept.p, 3, most, 1);
    printf("realloc to 2^62: %d, null %d, %.3s\n", more.ok, more.p == NULL, (const char *)kept.p);
    rattle_dealloc(kept.p);
}

static void errors(void)
{
    rattle_set_errno(ENOSPC);
    printf("errno %d %d\n", rattle_errno() == ENOSPC, errno == ENOSPC);
    errno = EAGAIN;
    printf("errno %d\n", rattle_errno() == EAGAIN);
}

static void words(void)
{
    static const size_t rooms[] = { 0, 1, 2, 3, 4, ROOM };
    unsigned char buffer[ROOM];
    size_t count = rattle_arg_count();

    printf("%zu arguments\n", count);
    for (size_t i = 1; i <= count; i++)
        for (size_t r = 0; r < sizeof rooms / sizeof *rooms; r++) {
            memset(buffer, '.', ROOM);
            print_filled("argument", rooms[r], rattle_arg(i, buffer, rooms[r]), buffer);
        }
    memset(buffer, '.', ROOM);
    print_filled("argument 2^63", ROOM, rattle_arg((size_t)1 << 63, buffer, ROOM), buffer);
}

static void environment(void)
{
    static const size_t rooms[] = { 0, 1, 4, 5, ROOM };
    unsigned char buffer[ROOM];

    clearenv();
    memset(buffer, '.', ROOM);
    print_filled("entry of no environment", ROOM, rattle_env_at(0, buffer, ROOM), buffer);
    setenv("NAME", "value", 1);
    setenv("EMPTY", "", 1);
    for (size_t r = 0; r < sizeof rooms / sizeof *rooms; r++) {
        memset(buffer, '.', ROOM);
        print_filled("NAME", rooms[r], rattle_env("NAME", buffer, rooms[r]), buffer);
        memset(buffer, '.', ROOM);
        print_filled("EMPTY", rooms[r], rattle_env("EMPTY", buffer, rooms[r]), buffer);
        memset(buffer, '.', ROOM);
        print_filled("OTHER", rooms[r], rattle_env("OTHER", buffer, rooms[r]), buffer);
        for (size_t i = 0; i < 4; i++) {
            memset(buffer, '.', ROOM);
            print_filled("entry", rooms[r], rattle_env_at(i, buffer, rooms[r]), buffer);
        }
    }
}

int main(void)
{
    heap();
    no_memory();
    errors();
    words();
    environment();
    return 0;
}
