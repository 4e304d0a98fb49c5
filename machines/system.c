/*
 * The rest of the kit's C side that the programs call, for machines that the kit has none for: errors of the system,
 * arguments and the environment. machines/heap.c says what holds of each function here, too.
 */
#define _GNU_SOURCE
#include <errno.h>
#include <stddef.h>
#include <stdlib.h>
#include <string.h>
#include <sys/types.h>
#include <unistd.h>

/* `rattle_errno` of os/src/c.rt: the error of the last call of the system. */
int rattle_errno(void)
{
    return errno;
}

/* `rattle_set_errno` of os/src/c.rt. */
void rattle_set_errno(int error)
{
    errno = error;
}

/* Puts a text at the start of a buffer. Returns its length, -1 if there is none, or -2 if it does not fit; then the
 * buffer is full of its first bytes. */
static ssize_t put(const char *text, unsigned char *buffer, size_t room)
{
    size_t length;

    if (text == NULL)
        return -1;
    length = strlen(text);
    memcpy(buffer, text, length < room ? length : room);
    return length <= room ? (ssize_t)length : -2;
}

static int argument_count;
static char **arguments;

/* Keeps the arguments before main runs: glibc passes them to each function of .init_array. */
static void keep_arguments(int count, char **words)
{
    argument_count = count;
    arguments = words;
}

__attribute__((section(".init_array"), used)) static void (*const kept_arguments)(int, char **) = keep_arguments;

/* `rattle_arg_count` of os/src/c.rt: how many arguments there are, the name of the program among them. */
size_t rattle_arg_count(void)
{
    return (size_t)argument_count;
}

/* `rattle_arg` of os/src/c.rt: puts an argument at the start of a buffer, as `put` does. */
ssize_t rattle_arg(size_t index, unsigned char *buffer, size_t room)
{
    return put(index < (size_t)argument_count ? arguments[index] : NULL, buffer, room);
}

/* `rattle_env` of os/src/c.rt: puts the value of a variable of the environment at the start of a buffer, as `put`
 * does. */
ssize_t rattle_env(const char *name, unsigned char *buffer, size_t room)
{
    return put(getenv(name), buffer, room);
}

/* `rattle_env_at` of os/src/c.rt: puts an entry of the environment at the start of a buffer, as `put` does. */
ssize_t rattle_env_at(size_t index, unsigned char *buffer, size_t room)
{
    char **entry = environ;

    if (entry == NULL)
        return -1;
    for (; index > 0 && *entry != NULL; index--)
        entry++;
    return put(*entry, buffer, room);
}
