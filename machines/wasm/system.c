/*
 * The system for programs in WebAssembly: what they call of the C library and of the kit's C side, by calls of WASI,
 * preview 1. bindings/javascript/lib/system.js has these calls for node, and other hosts of WASI have them too. heap.c
 * beside it has the memory.
 *
 * Nothing proves C. Each function says which declaration of the kit's sources it meets; machines/kit.sha256 has their
 * sums. The memory has 64-bit addresses here and 32-bit ones after lowering, so what a host reads is written out in 32
 * bits. No call here goes through a pointer: that would need a table with 64-bit addresses, which wasm-opt cannot
 * lower.
 */
#include "../errors.h"

#define WASI(name) \
    __attribute__((import_module("wasi_snapshot_preview1"), import_name(#name))) extern uint32_t wasi_##name
WASI(args_sizes_get)(uint32_t count, uint32_t size);
WASI(args_get)(uint32_t words, uint32_t bytes);
WASI(environ_sizes_get)(uint32_t count, uint32_t size);
WASI(environ_get)(uint32_t words, uint32_t bytes);
WASI(fd_read)(uint32_t fd, uint32_t parts, uint32_t count, uint32_t done);
WASI(fd_write)(uint32_t fd, uint32_t parts, uint32_t count, uint32_t done);
WASI(fd_close)(uint32_t fd);
WASI(fd_sync)(uint32_t fd);
WASI(fd_datasync)(uint32_t fd);
WASI(fd_fdstat_get)(uint32_t fd, uint32_t stat);
WASI(fd_filestat_get)(uint32_t fd, uint32_t stat);
WASI(fd_filestat_set_size)(uint32_t fd, uint64_t size);
WASI(fd_prestat_get)(uint32_t fd, uint32_t stat);
WASI(fd_prestat_dir_name)(uint32_t fd, uint32_t path, uint32_t length);
WASI(path_open)(uint32_t fd, uint32_t follow, uint32_t path, uint32_t length, uint32_t how, uint64_t rights,
                uint64_t inherited, uint32_t flags, uint32_t opened);
WASI(path_filestat_get)(uint32_t fd, uint32_t follow, uint32_t path, uint32_t length, uint32_t stat);
WASI(path_readlink)(uint32_t fd, uint32_t path, uint32_t length, uint32_t buffer, uint32_t room, uint32_t used);
WASI(path_unlink_file)(uint32_t fd, uint32_t path, uint32_t length);
WASI(path_rename)(uint32_t fd, uint32_t path, uint32_t length, uint32_t to_fd, uint32_t to, uint32_t to_length);
__attribute__((import_module("wasi_snapshot_preview1"), import_name("proc_exit"), noreturn)) extern void
wasi_proc_exit(uint32_t status);

/* Kinds of files, in WASI's numbers. */
enum { UNKNOWN, BLOCKS, CHARACTERS, FOLDER, FILE, DATAGRAMS, STREAM, LINK };
/* Flags of path_open, and rights to a file. */
enum { CREATE = 1, EXCLUSIVE = 4, TRUNCATE = 8, APPENDS = 1 };
#define RIGHT(number) ((uint64_t)1 << (number))
#define TO_SEEK RIGHT(2)
#define TO_TELL RIGHT(5)
/* read, seek, tell, readdir, stat; write, datasync, sync, allocate, stat, set size. */
#define TO_READ (RIGHT(1) | TO_SEEK | TO_TELL | RIGHT(14) | RIGHT(21))
#define TO_WRITE (RIGHT(0) | TO_SEEK | RIGHT(4) | TO_TELL | RIGHT(6) | RIGHT(8) | RIGHT(21) | RIGHT(22))

/* The most bytes that a read or a write moves at once, which is Linux's number. */
#define MOST 0x7ffff000

/* Memory of heap.c. */
void *page_allocate(size_t size);

static uint32_t at(const void *p)
{
    return (uint32_t)(size_t)p;
}

/* ---- errors ---- */

/* Answers 0, or -1 with Linux's number of an error of WASI, by WASI's numbers. */
static int status(uint32_t wasi)
{
    static const uint8_t errors[] = {
        0,   7,   13,  98, 99, 97, 11, 114, 9,   74,  16,  125, 10, 103, 111, 104, 35,  89,  33, 122,
        17,  14,  27,  113, 43, 84, 115, 4, 22,  5,   106, 21,  40, 24,  31,  90,  72,  36,  100, 102,
        101, 23,  105, 19, 2,  8,  37, 67,  12,  42,  92,  28,  38, 107, 20,  39,  131, 88,  95, 25,
        6,   75,  130, 1,  32, 71, 93, 91,  34,  30,  29,  3,   116, 110, 26, 18,  13,
    };

    return wasi == 0 ? 0 : failed_with(wasi < sizeof errors ? errors[wasi] : LINUX_EIO);
}

/* ---- arguments and the environment ---- */

struct words {
    uint32_t count;
    const uint32_t *addresses;
};
static struct words arguments, environment;

static struct words room_for(const uint32_t sizes[2], char **bytes)
{
    struct words made = { 0, page_allocate(((size_t)sizes[0] + 1) * 4) };

    *bytes = page_allocate((size_t)sizes[1] + 1);
    if (made.addresses != NULL && *bytes != NULL)
        made.count = sizes[0];
    return made;
}

static void read_words(void)
{
    uint32_t sizes[2] = { 0, 0 };
    char *bytes;

    if (wasi_args_sizes_get(at(sizes), at(sizes + 1)) == 0) {
        arguments = room_for(sizes, &bytes);
        if (arguments.count != 0 && wasi_args_get(at(arguments.addresses), at(bytes)) != 0)
            arguments.count = 0;
    }
    if (wasi_environ_sizes_get(at(sizes), at(sizes + 1)) == 0) {
        environment = room_for(sizes, &bytes);
        if (environment.count != 0 && wasi_environ_get(at(environment.addresses), at(bytes)) != 0)
            environment.count = 0;
    }
}

static const char *word_at(const struct words *words, size_t index)
{
    return index < words->count ? (const char *)(size_t)words->addresses[index] : NULL;
}

/* `rattle_arg_count` of os/src/c.rt: how many arguments there are, the name of the program among them. */
size_t rattle_arg_count(void)
{
    return arguments.count;
}

/* `rattle_arg` of os/src/c.rt: puts an argument at the start of a buffer, as `put` does. */
int64_t rattle_arg(size_t index, unsigned char *buffer, size_t room)
{
    return put(word_at(&arguments, index), buffer, room);
}

/* `rattle_env_at` of os/src/c.rt: puts an entry of the environment at the start of a buffer, as `put` does. */
int64_t rattle_env_at(size_t index, unsigned char *buffer, size_t room)
{
    return put(word_at(&environment, index), buffer, room);
}

/* `rattle_env` of os/src/c.rt: puts the value of a variable of the environment at the start of a buffer, as `put`
 * does. */
int64_t rattle_env(const char *name, unsigned char *buffer, size_t room)
{
    for (size_t i = 0; i < environment.count; i++) {
        const char *entry = word_at(&environment, i);
        size_t n = 0;

        while (name[n] != 0 && entry[n] == name[n])
            n++;
        if (name[n] == 0 && entry[n] == '=')
            return put(entry + n + 1, buffer, room);
    }
    return -1;
}

/* ---- paths ---- */

/* A folder that the host opened, and the rest of a path in it. */
struct place {
    uint32_t fd;
    const char *path;
    uint32_t length;
};

#define MOST_ROOTS 32
/* The folders that the host opened before the start. */
static struct root {
    uint32_t fd;
    char name[256];
    size_t length;
} roots[MOST_ROOTS];
static size_t root_count;

static void find_roots(void)
{
    for (uint32_t fd = 3; root_count < MOST_ROOTS; fd++) {
        struct root *root = &roots[root_count];
        uint32_t stat[2];

        if (wasi_fd_prestat_get(fd, at(stat)) != 0)
            return;
        if ((stat[0] & 0xff) != 0 || stat[1] >= sizeof root->name)
            continue;
        if (wasi_fd_prestat_dir_name(fd, at(root->name), stat[1]) != 0)
            continue;
        root->fd = fd;
        root->length = stat[1];
        while (root->length > 0 && (root->name[root->length - 1] == 0 || root->name[root->length - 1] == '/'))
            root->length--;
        root_count++;
    }
}

static int is_here(const struct root *root)
{
    return root->length == 1 && root->name[0] == '.';
}

/* Where the rest of a path begins, if it leads into this folder. */
static const char *rest_in(const struct root *root, const char *path)
{
    size_t n = 0;

    while (n < root->length && path[n] == root->name[n])
        n++;
    return n == root->length && (path[n] == '/' || path[n] == 0) ? path + n : NULL;
}

/* Finds where a path leads: a relative one below ".", any other below the folder with the longest name that begins it.
 * Answers 0, or -1. */
static int place_of(const char *path, struct place *place)
{
    const struct root *found = NULL;

    if (path[0] == 0)
        return failed_with(LINUX_ENOENT);
    for (size_t i = 0; i < root_count; i++) {
        const struct root *root = &roots[i];

        if (path[0] != '/' ? is_here(root) : rest_in(root, path) != NULL && (!found || found->length < root->length))
            found = root;
    }
    if (found == NULL)
        return failed_with(LINUX_ENOENT);
    place->fd = found->fd;
    place->path = path[0] != '/' ? path : rest_in(found, path);
    while (path[0] == '/' && place->path[0] == '/')
        place->path++;
    if (place->path[0] == 0)
        place->path = ".";
    place->length = (uint32_t)length_of(place->path);
    return 0;
}

/* ---- files ---- */

/* `open` of os/src/c.rt. WASI has no modes, so the one that may follow is not read. */
int system_open(const char *path, int flags, ...)
{
    int access = flags & LINUX_ACCESS;
    uint64_t rights = (access != LINUX_WRONLY ? TO_READ : 0) | (access != LINUX_RDONLY ? TO_WRITE : 0);
    uint32_t how = ((flags & LINUX_CREAT) != 0 ? CREATE : 0) | ((flags & LINUX_EXCL) != 0 ? EXCLUSIVE : 0) |
                   ((flags & LINUX_TRUNC) != 0 ? TRUNCATE : 0);
    struct place place;
    uint32_t opened = 0;

    if (place_of(path, &place) != 0)
        return -1;
    if (status(wasi_path_open(place.fd, 1, at(place.path), place.length, how, rights, 0,
                              (flags & LINUX_APPEND) != 0 ? APPENDS : 0, at(&opened))) != 0)
        return -1;
    return (int)opened;
}

/* Bytes to read or to write: WASI's iovec. */
struct part {
    uint32_t at, length;
};

static struct part part_of(const void *buffer, size_t length)
{
    return (struct part){ at(buffer), length > MOST ? MOST : (uint32_t)length };
}

/* What WASI knows of a descriptor: its kind in the lowest byte, and rights in the second word. */
static int fdstat(int fd, uint64_t stat[3])
{
    return status(wasi_fd_fdstat_get((uint32_t)fd, at(stat)));
}

/* `read` of libc/src/lib.rt. Hosts have several errors for a folder, and Linux has one. */
int64_t system_read(int fd, void *buffer, size_t room)
{
    struct part part = part_of(buffer, room);
    uint32_t done = 0;
    uint64_t stat[3];

    if (status(wasi_fd_read((uint32_t)fd, at(&part), 1, at(&done))) == 0)
        return done;
    if (error_now != LINUX_EBADF && fdstat(fd, stat) == 0 && (stat[0] & 0xff) == FOLDER)
        error_now = LINUX_EISDIR;
    return -1;
}

/* `write` of libc/src/lib.rt. */
int64_t system_write(int fd, const void *buffer, size_t length)
{
    struct part part = part_of(buffer, length);
    uint32_t done = 0;

    return status(wasi_fd_write((uint32_t)fd, at(&part), 1, at(&done))) == 0 ? (int64_t)done : -1;
}

/* `close` of libc/src/lib.rt. */
int system_close(int fd)
{
    return status(wasi_fd_close((uint32_t)fd));
}

/* `fsync` of libc/src/lib.rt. */
int system_fsync(int fd)
{
    return status(wasi_fd_sync((uint32_t)fd));
}

/* `fdatasync` of libc/src/lib.rt. */
int system_fdatasync(int fd)
{
    return status(wasi_fd_datasync((uint32_t)fd));
}

/* `ftruncate` of libc/src/lib.rt. */
int system_ftruncate(int fd, int64_t length)
{
    return status(wasi_fd_filestat_set_size((uint32_t)fd, (uint64_t)length));
}

/* `isatty` of libc/src/lib.rt: a terminal is a character device that can neither seek nor tell, as in WASI's C
 * library. */
int system_isatty(int fd)
{
    uint64_t stat[3];

    return fdstat(fd, stat) == 0 && (stat[0] & 0xff) == CHARACTERS && (stat[1] & (TO_SEEK | TO_TELL)) == 0;
}

/* `fchmod` of libc/src/lib.rt. WASI has no modes: the host keeps that of a file that another takes the place of. */
int system_fchmod(int fd, uint32_t mode)
{
    (void)fd, (void)mode;
    return 0;
}

/* `flock` of libc/src/lib.rt. WASI has no locks. */
int system_flock(int fd, int operation)
{
    (void)fd, (void)operation;
    return 0;
}

/* `unlink` of libc/src/lib.rt. */
int system_unlink(const char *path)
{
    struct place place;

    return place_of(path, &place) == 0 ? status(wasi_path_unlink_file(place.fd, at(place.path), place.length)) : -1;
}

/* `rename` of libc/src/lib.rt. */
int system_rename(const char *from, const char *to)
{
    struct place old, new;

    if (place_of(from, &old) != 0 || place_of(to, &new) != 0)
        return -1;
    return status(wasi_path_rename(old.fd, at(old.path), old.length, new.fd, at(new.path), new.length));
}

/* `readlink` of libc/src/lib.rt. */
int64_t system_readlink(const char *path, char *buffer, size_t room)
{
    struct place place;
    uint32_t used = 0;

    if (place_of(path, &place) != 0)
        return -1;
    if (status(wasi_path_readlink(place.fd, at(place.path), place.length, at(buffer), (uint32_t)room, at(&used))) != 0)
        return -1;
    return used;
}

/* WASI's filestat. */
struct filestat {
    uint64_t device, number, kind, links, size, accessed, modified, changed;
};

static struct linux_time time_of(uint64_t nanoseconds)
{
    return (struct linux_time){ (int64_t)(nanoseconds / 1000000000), (uint32_t)(nanoseconds % 1000000000), 0 };
}

/* The facts on a file of a path, or of a descriptor if the path is empty. Answers 0, or -1. */
static int filestat(int fd, const char *path, int flags, struct filestat *found)
{
    uint32_t follow = (flags & LINUX_NOFOLLOW) == 0;
    struct place place;

    if ((flags & LINUX_EMPTY_PATH) != 0 && path[0] == 0)
        return status(wasi_fd_filestat_get((uint32_t)fd, at(found)));
    if (is_same(path, "/dev/stdin"))
        return status(wasi_fd_filestat_get(0, at(found)));
    if (place_of(path, &place) != 0)
        return -1;
    return status(wasi_path_filestat_get(place.fd, follow, at(place.path), place.length, at(found)));
}

/* `statx` of libc/src/lib.rt: what WASI knows of a file. It has no kind for pipes, and no modes. */
int system_statx(int fd, const char *path, int flags, uint32_t mask, struct linux_statx *stat)
{
    static const uint16_t modes[] = { [UNKNOWN] = LINUX_PIPE,       [BLOCKS] = LINUX_BLOCKS,
                                      [CHARACTERS] = LINUX_CHARACTERS, [FOLDER] = LINUX_FOLDER,
                                      [FILE] = LINUX_FILE,          [DATAGRAMS] = LINUX_SOCKET,
                                      [STREAM] = LINUX_SOCKET,      [LINK] = LINUX_LINK };
    struct filestat found;

    (void)mask;
    if (filestat(fd, path, flags, &found) != 0)
        return -1;
    *stat = (struct linux_statx){
        .mask = LINUX_BASIC_FACTS,
        .links = (uint32_t)found.links,
        .mode = modes[found.kind & 7],
        .number = found.number,
        .size = found.size,
        .accessed = time_of(found.accessed),
        .changed = time_of(found.changed),
        .modified = time_of(found.modified),
    };
    return 0;
}

/* glibc's `signal`, which the start of a program calls so that no closed pipe ends it. There are no signals. */
int64_t system_signal(int signal, int64_t handler)
{
    (void)signal, (void)handler;
    return 0;
}

/* glibc's `__x86_get_cpuid_feature_leaf`, by which the start of a program sees whether the processor has all that the
 * rest needs. Here all is there: the module needs no instruction that a host may lack. */
const struct linux_cpu_features *system_cpu_features(uint32_t leaf)
{
    static const struct linux_cpu_features all = { { ~0u, ~0u, ~0u, ~0u }, { ~0u, ~0u, ~0u, ~0u } };

    (void)leaf;
    return &all;
}

/* ---- the start ---- */

/* `main` of the proved program. */
int program_main(void);

/* Where a host begins. */
void _start(void);

void _start(void)
{
    read_words();
    find_roots();
    wasi_proc_exit((uint32_t)program_main());
}
