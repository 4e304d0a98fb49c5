/*
 * Makes each call of the system that the programs make, and prints what it answers: the lines are the same on each
 * system. machines/system_test.py runs it on Linux, in node and on Windows, in a folder with the folder `d`, with two
 * arguments and the variable GIVEN.
 *
 * It is compiled with each system's own C file, and on Linux (with -DON_LINUX) with machines/system.c and glibc.
 */
#include "linux.h"

#ifdef ON_LINUX
#define CALL(name) name
#define system_strerror_r __xpg_strerror_r
#define system_cpu_features __x86_get_cpuid_feature_leaf
#define PROGRAM main
#else
#define CALL(name) system_##name
#define PROGRAM program_main
#endif

int CALL(open)(const char *path, int flags, ...);
int64_t CALL(read)(int fd, void *buffer, size_t room);
int64_t CALL(write)(int fd, const void *buffer, size_t length);
int CALL(close)(int fd);
int CALL(isatty)(int fd);
int CALL(unlink)(const char *path);
int CALL(rename)(const char *from, const char *to);
int CALL(ftruncate)(int fd, int64_t length);
int CALL(fsync)(int fd);
int CALL(fdatasync)(int fd);
int CALL(fchmod)(int fd, uint32_t mode);
int CALL(flock)(int fd, int operation);
int64_t CALL(readlink)(const char *path, char *buffer, size_t room);
int CALL(statx)(int fd, const char *path, int flags, uint32_t mask, struct linux_statx *stat);
int system_strerror_r(int error, char *buffer, size_t room);
const struct linux_cpu_features *system_cpu_features(uint32_t leaf);
int rattle_errno(void);
void rattle_set_errno(int error);
size_t rattle_arg_count(void);
int64_t rattle_arg(size_t index, unsigned char *buffer, size_t room);
int64_t rattle_env(const char *name, unsigned char *buffer, size_t room);

/* The flags that each call of `open` has: no controlling terminal, and closed in a new program. */
#define ALWAYS (0400 | 02000000)
#define HERE (-100)

static unsigned char buffer[300];

static void print(const char *text)
{
    CALL(write)(1, text, length_of(text));
}

static void print_bytes(const char *what, const unsigned char *bytes, int64_t length)
{
    print(what);
    print(" <");
    if (length > 0)
        CALL(write)(1, bytes, (size_t)length);
    print(">\n");
}

static void print_number(int64_t number)
{
    char digits[24];
    size_t at = sizeof digits;
    uint64_t left = number < 0 ? -(uint64_t)number : (uint64_t)number;

    do
        digits[--at] = (char)('0' + left % 10);
    while ((left /= 10) != 0);
    if (number < 0)
        digits[--at] = '-';
    CALL(write)(1, digits + at, sizeof digits - at);
}

/* Prints what a call answers, and the error if it is negative. */
static void tell(const char *what, int64_t answer)
{
    char text[64];

    print(what);
    print(": ");
    print_number(answer);
    if (answer < 0) {
        system_strerror_r(rattle_errno(), text, sizeof text);
        print(", error ");
        print_number(rattle_errno());
        print(" ");
        print(text);
    }
    print("\n");
}

static int opens(const char *path, int flags)
{
    return CALL(open)(path, flags | ALWAYS, 0666);
}

/* Opens a file, which is closed again. */
static void tell_opened(const char *what, const char *path, int flags)
{
    int fd = opens(path, flags);

    tell(what, fd < 0 ? -1 : 0);
    if (fd >= 0)
        CALL(close)(fd);
}

static void tell_facts(const char *path, int flags)
{
    struct linux_statx stat;
    int answer = CALL(statx)(HERE, path, flags, LINUX_BASIC_FACTS, &stat);

    print("statx ");
    tell(path, answer);
    if (answer == 0)
        tell("  kind", stat.mode & 0170000);
    if (answer == 0 && (stat.mode & 0170000) == 0100000)
        tell("  size", (int64_t)stat.size);
}

static void words(void)
{
    int64_t length;

    tell("arguments", (int64_t)rattle_arg_count());
    for (size_t i = 1; (length = rattle_arg(i, buffer, sizeof buffer)) >= 0; i++)
        print_bytes("argument", buffer, length);
    tell("argument in 2 bytes", rattle_arg(1, buffer, 2) == -2);
    tell("no variable", rattle_env("LOST", buffer, sizeof buffer) == -1);
    print_bytes("variable", buffer, rattle_env("GIVEN", buffer, sizeof buffer));
    /* What a program needs: SSE3, SSSE3, CMPXCHG16B, SSE4.1, SSE4.2 and POPCNT; and LAHF. */
    tell("processor", (system_cpu_features(0)->usable[2] & 0x982201) == 0x982201);
    tell("processor, more", (int64_t)(system_cpu_features(2)->usable[2] & 1));
    rattle_set_errno(LINUX_ENOSPC);
    tell("an error that was set", rattle_errno() == LINUX_ENOSPC);
}

static void opening(void)
{
    int fd;

    tell_opened("open what is not there", "lost", LINUX_RDONLY);
    tell_opened("open in a folder that is not there", "d/lost/x", LINUX_RDONLY);
    tell_opened("open a folder to write", "d", LINUX_WRONLY);
    tell_opened("open a folder to create", "d", LINUX_WRONLY | LINUX_CREAT | LINUX_TRUNC);
    fd = opens("d", LINUX_RDONLY);
    tell("open a folder", fd < 0 ? -1 : 0);
    tell("read a folder", CALL(read)(fd, buffer, 10));
    tell("close it", CALL(close)(fd));
    tell("close it again", CALL(close)(fd));
    tell("read what is not open", CALL(read)(99, buffer, 1));
    tell("write what is not open", CALL(write)(99, buffer, 1));
}

static void writing(void)
{
    int fd = opens("d/new", LINUX_WRONLY | LINUX_CREAT | LINUX_EXCL);

    tell("create", fd < 0 ? -1 : 0);
    tell_opened("create again", "d/new", LINUX_WRONLY | LINUX_CREAT | LINUX_EXCL);
    tell("write", CALL(write)(fd, "hello\r\n\x1a\n", 9));
    tell("fsync", CALL(fsync)(fd));
    tell("fdatasync", CALL(fdatasync)(fd));
    tell("ftruncate", CALL(ftruncate)(fd, 8));
    tell("fchmod", CALL(fchmod)(fd, 0644));
    tell("flock", CALL(flock)(fd, 2));
    tell_facts("d/new", 0);
    tell_facts("d/new", LINUX_NOFOLLOW);
    tell_facts("d", 0);
    tell_facts("lost", 0);
    tell_facts("/dev/null", 0);
    tell("readlink of a file", CALL(readlink)("d/new", (char *)buffer, sizeof buffer));
    tell("close", CALL(close)(fd));
    tell("rename", CALL(rename)("d/new", "d/old"));
    tell("rename what is not there", CALL(rename)("d/new", "d/old"));
}

static void reading(void)
{
    int fd = opens("d/old", LINUX_RDONLY);
    int64_t length = CALL(read)(fd, buffer, sizeof buffer);

    tell("read", length);
    print_bytes("  which are", buffer, length);
    tell("read at the end", CALL(read)(fd, buffer, sizeof buffer));
    CALL(close)(fd);
    fd = opens("d/old", LINUX_WRONLY | LINUX_APPEND);
    tell("append", CALL(write)(fd, "more", 4));
    CALL(close)(fd);
    tell_facts("d/old", 0);
    tell_opened("truncate", "d/old", LINUX_WRONLY | LINUX_CREAT | LINUX_TRUNC);
    tell_facts("d/old", 0);
    tell("unlink", CALL(unlink)("d/old"));
    tell("unlink again", CALL(unlink)("d/old"));
    fd = opens("/dev/null", LINUX_WRONLY);
    tell("write to nothing", CALL(write)(fd, "x", 1));
    CALL(close)(fd);
}

static void streams(void)
{
    int64_t length;

    tell("a terminal for input", CALL(isatty)(0) == 1);
    tell("a terminal for output", CALL(isatty)(1) == 1);
    print("input <");
    while ((length = CALL(read)(0, buffer, 100)) > 0)
        CALL(write)(1, buffer, (size_t)length);
    print(">\n");
    tell("its end", length);
}

int PROGRAM(void);

int PROGRAM(void)
{
    words();
    opening();
    writing();
    reading();
    streams();
    return 3;
}
