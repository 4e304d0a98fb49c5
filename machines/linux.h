/*
 * Linux, as the proved programs know it: numbers of flags and errors, and the facts on a file. The C files for other
 * systems answer in these words. The kit's libc/src/lib.rt and libc/src/types.rt have the same numbers.
 */
#ifndef LINUX_H
#define LINUX_H

#ifdef _WIN32
#include <stddef.h>
#include <stdint.h>
#else
/* The kit's clang has no headers. */
typedef __SIZE_TYPE__ size_t;
typedef __UINT8_TYPE__ uint8_t;
typedef __UINT16_TYPE__ uint16_t;
typedef __UINT32_TYPE__ uint32_t;
typedef __UINT64_TYPE__ uint64_t;
typedef __INT32_TYPE__ int32_t;
typedef __INT64_TYPE__ int64_t;
#define NULL ((void *)0)
#endif

/* Flags of `open`. The lowest two bits say whether it is for reading, writing or both. */
enum {
    LINUX_ACCESS = 3,
    LINUX_RDONLY = 0,
    LINUX_WRONLY = 1,
    LINUX_RDWR = 2,
    LINUX_CREAT = 0100,
    LINUX_EXCL = 0200,
    LINUX_TRUNC = 01000,
    LINUX_APPEND = 02000,
};

/* Flags of `statx`: the file of the descriptor if the path is empty; a link itself. */
enum { LINUX_EMPTY_PATH = 0x1000, LINUX_NOFOLLOW = 0x100 };

/* Kinds of files, with the modes that are told where a system has none. */
enum {
    LINUX_PIPE = 0010644,
    LINUX_CHARACTERS = 0020644,
    LINUX_FOLDER = 0040755,
    LINUX_BLOCKS = 0060644,
    LINUX_FILE = 0100644,
    LINUX_LINK = 0120777,
    LINUX_SOCKET = 0140755,
};

enum {
    LINUX_EPERM = 1, LINUX_ENOENT = 2, LINUX_EINTR = 4, LINUX_EIO = 5, LINUX_ENXIO = 6, LINUX_EBADF = 9,
    LINUX_EAGAIN = 11, LINUX_ENOMEM = 12, LINUX_EACCES = 13, LINUX_EBUSY = 16, LINUX_EEXIST = 17, LINUX_EXDEV = 18,
    LINUX_ENOTDIR = 20, LINUX_EISDIR = 21, LINUX_EINVAL = 22, LINUX_ENFILE = 23, LINUX_EMFILE = 24, LINUX_ETXTBSY = 26,
    LINUX_EFBIG = 27, LINUX_ENOSPC = 28, LINUX_ESPIPE = 29, LINUX_EROFS = 30, LINUX_EMLINK = 31, LINUX_EPIPE = 32,
    LINUX_ERANGE = 34, LINUX_ENAMETOOLONG = 36, LINUX_ENOSYS = 38, LINUX_ENOTEMPTY = 39, LINUX_ELOOP = 40,
    LINUX_EOVERFLOW = 75, LINUX_EOPNOTSUPP = 95, LINUX_EDQUOT = 122,
};

struct linux_time {
    int64_t seconds;
    uint32_t nanoseconds;
    int32_t reserved;
};

/* `statx` of libc/src/types.rt. */
struct linux_statx {
    uint32_t mask, block_size;
    uint64_t attributes;
    uint32_t links, user, group;
    uint16_t mode, spare;
    uint64_t number, size, blocks, attributes_mask;
    struct linux_time accessed, created, changed, modified;
    uint32_t device[4];
    uint64_t rest[14];
};

/* Which facts of `statx` are there: those of POSIX's stat. */
#define LINUX_BASIC_FACTS 0x7ff

/* What glibc knows of a processor: the registers of `cpuid`, and what of them can be used. */
struct linux_cpu_features {
    uint32_t there[4], usable[4];
};

static inline size_t length_of(const char *text)
{
    size_t n = 0;

    while (text[n] != 0)
        n++;
    return n;
}

static inline int is_same(const char *a, const char *b)
{
    while (*a != 0 && *a == *b)
        a++, b++;
    return *a == *b;
}

/* Puts a text at the start of a buffer. Returns its length, -1 if there is none, or -2 if it does not fit; then the
 * buffer is full of its first bytes. */
static inline int64_t put(const char *text, unsigned char *buffer, size_t room)
{
    size_t length;

    if (text == NULL)
        return -1;
    length = length_of(text);
    for (size_t i = 0; i < length && i < room; i++)
        buffer[i] = (unsigned char)text[i];
    return length <= room ? (int64_t)length : -2;
}

#endif
