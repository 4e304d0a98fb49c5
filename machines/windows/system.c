/*
 * The system for programs on Windows: what they call of Linux's C library and of the kit's C side, by Windows' own
 * calls. heap.c beside it has the memory.
 *
 * Nothing proves C. Each function says which declaration of the kit's sources it meets; machines/kit.sha256 has their
 * sums. The module calls these functions as system_*, because Windows' C library has `open`, `read` and the like, with
 * other numbers, and changes line ends. A file is a handle here, so that all is binary. A text is UTF-16 outside and
 * UTF-8 inside.
 */
#define _WIN32_WINNT 0x0601
#include <windows.h>
#include <cpuid.h>
#include <shellapi.h>
#include <stdlib.h>
#include <string.h>

#include "../errors.h"

/* The most bytes that a read or a write moves at once. */
#define MOST ((size_t)1 << 30)

/* ---- errors ---- */

/* Linux's number of an error of Windows. */
static int linux_error(DWORD error)
{
    switch (error) {
    case ERROR_FILE_NOT_FOUND:
    case ERROR_PATH_NOT_FOUND:
    case ERROR_INVALID_NAME:
    case ERROR_BAD_NETPATH:
    case ERROR_INVALID_DRIVE:
    case ERROR_BAD_PATHNAME: return LINUX_ENOENT;
    case ERROR_ACCESS_DENIED:
    case ERROR_SHARING_VIOLATION:
    case ERROR_LOCK_VIOLATION: return LINUX_EACCES;
    case ERROR_INVALID_HANDLE: return LINUX_EBADF;
    case ERROR_NOT_ENOUGH_MEMORY:
    case ERROR_OUTOFMEMORY: return LINUX_ENOMEM;
    case ERROR_FILE_EXISTS:
    case ERROR_ALREADY_EXISTS: return LINUX_EEXIST;
    case ERROR_NOT_SAME_DEVICE: return LINUX_EXDEV;
    case ERROR_DIRECTORY: return LINUX_ENOTDIR;
    case ERROR_TOO_MANY_OPEN_FILES: return LINUX_EMFILE;
    case ERROR_DISK_FULL:
    case ERROR_HANDLE_DISK_FULL: return LINUX_ENOSPC;
    case ERROR_WRITE_PROTECT: return LINUX_EROFS;
    case ERROR_BROKEN_PIPE:
    case ERROR_NO_DATA:
    case ERROR_PIPE_NOT_CONNECTED: return LINUX_EPIPE;
    case ERROR_FILENAME_EXCED_RANGE: return LINUX_ENAMETOOLONG;
    case ERROR_CANT_RESOLVE_FILENAME: return LINUX_ELOOP;
    case ERROR_INVALID_PARAMETER: return LINUX_EINVAL;
    default: return LINUX_EIO;
    }
}

/* Answers -1, with the error of the last call of Windows. */
static int failed(void)
{
    return failed_with(linux_error(GetLastError()));
}

/* ---- texts ---- */

static int is_high(uint32_t unit)
{
    return unit >= 0xd800 && unit < 0xdc00;
}

static int is_low(uint32_t unit)
{
    return unit >= 0xdc00 && unit < 0xe000;
}

/* Puts a character, or half of a surrogate pair, as UTF-8 does. Returns what is after it. */
static unsigned char *put_character(unsigned char *at, uint32_t c)
{
    int more = c < 0x80 ? 0 : c < 0x800 ? 1 : c < 0x10000 ? 2 : 3;
    static const unsigned char heads[] = { 0, 0xc0, 0xe0, 0xf0 };

    *at++ = (unsigned char)(heads[more] | c >> 6 * more);
    while (more-- > 0)
        *at++ = (unsigned char)(0x80 | (c >> 6 * more & 0x3f));
    return at;
}

/* A text in UTF-8, which the caller frees; null if there is no memory. What is no UTF-16 becomes bytes that are no
 * UTF-8, so that the program says so. */
static char *narrow(const wchar_t *wide)
{
    size_t n = wcslen(wide);
    unsigned char *made = malloc(3 * n + 1), *at = made;

    if (made == NULL)
        return NULL;
    for (size_t i = 0; i < n; i++) {
        uint32_t unit = wide[i];

        if (is_high(unit) && is_low(wide[i + 1]))
            unit = 0x10000 + ((unit - 0xd800) << 10) + (wide[++i] - 0xdc00u);
        at = put_character(at, unit);
    }
    *at = 0;
    return (char *)made;
}

/* The most units of a path here, with the zero that ends it. */
#define MOST_PATH 4096

/* A path for Windows, or null. */
static wchar_t *widen(const char *path, wchar_t wide[MOST_PATH])
{
    if (is_same(path, "/dev/null"))
        path = "NUL";
    if (MultiByteToWideChar(CP_UTF8, MB_ERR_INVALID_CHARS, path, -1, wide, MOST_PATH) != 0)
        return wide;
    failed_with(GetLastError() == ERROR_INSUFFICIENT_BUFFER ? LINUX_ENAMETOOLONG : LINUX_ENOENT);
    return NULL;
}

/* ---- arguments and the environment ---- */

static int argument_count;
static char **arguments;

/* Whether a console shows colours by escape sequences: then TERM is told to be there. */
static int shows_colors;

/* `rattle_arg_count` of os/src/c.rt: how many arguments there are, the name of the program among them. */
size_t rattle_arg_count(void)
{
    return (size_t)argument_count;
}

/* `rattle_arg` of os/src/c.rt: puts an argument at the start of a buffer, as `put` does. */
int64_t rattle_arg(size_t index, unsigned char *buffer, size_t room)
{
    return put(index < (size_t)argument_count ? arguments[index] : NULL, buffer, room);
}

/* The value of a variable of the environment in UTF-8, which the caller frees; null if there is none. */
static char *variable(const char *name)
{
    wchar_t wide[256], *value;
    DWORD length;
    char *made;

    if (MultiByteToWideChar(CP_UTF8, 0, name, -1, wide, 256) == 0)
        return NULL;
    SetLastError(0);
    length = GetEnvironmentVariableW(wide, NULL, 0);
    value = length != 0 || GetLastError() == 0 ? calloc((size_t)length + 1, sizeof *value) : NULL;
    if (value == NULL)
        return NULL;
    GetEnvironmentVariableW(wide, value, length + 1);
    made = narrow(value);
    free(value);
    return made;
}

/* `rattle_env` of os/src/c.rt: puts the value of a variable of the environment at the start of a buffer, as `put`
 * does. */
int64_t rattle_env(const char *name, unsigned char *buffer, size_t room)
{
    char *value = variable(name);
    int64_t answer = put(value, buffer, room);

    free(value);
    return answer < 0 && value == NULL && shows_colors && is_same(name, "TERM") ? put("xterm-256color", buffer, room)
                                                                                : answer;
}

/* `rattle_env_at` of os/src/c.rt: puts an entry of the environment at the start of a buffer. It shows none: the
 * programs ask for single variables. */
int64_t rattle_env_at(size_t index, unsigned char *buffer, size_t room)
{
    (void)index, (void)buffer, (void)room;
    return -1;
}

/* ---- files ---- */

/* A descriptor is a place in this table. */
#define MOST_FILES 64
static HANDLE files[MOST_FILES];

static HANDLE handle_of(int fd)
{
    return fd >= 0 && fd < MOST_FILES && files[fd] != NULL ? files[fd] : INVALID_HANDLE_VALUE;
}

/* The first free descriptor, or -1. */
static int free_descriptor(void)
{
    for (int fd = 3; fd < MOST_FILES; fd++)
        if (files[fd] == NULL)
            return fd;
    return failed_with(LINUX_EMFILE);
}

static int is_folder(const wchar_t *path)
{
    DWORD attributes = GetFileAttributesW(path);

    return attributes != INVALID_FILE_ATTRIBUTES && (attributes & FILE_ATTRIBUTE_DIRECTORY) != 0;
}

/* What is done about a file that is there or not, by the flags of `open`. */
static DWORD disposition(int flags)
{
    if ((flags & LINUX_EXCL) != 0)
        return CREATE_NEW;
    if ((flags & LINUX_CREAT) != 0)
        return (flags & LINUX_TRUNC) != 0 ? CREATE_ALWAYS : OPEN_ALWAYS;
    return (flags & LINUX_TRUNC) != 0 ? TRUNCATE_EXISTING : OPEN_EXISTING;
}

static DWORD access_of(int flags)
{
    DWORD reads = (flags & LINUX_ACCESS) != LINUX_WRONLY ? GENERIC_READ : 0;
    DWORD writes = (flags & LINUX_APPEND) != 0 ? FILE_APPEND_DATA : GENERIC_WRITE;

    return reads | ((flags & LINUX_ACCESS) != LINUX_RDONLY ? writes : 0);
}

/* Opens a path. A file that is open may get another name, and a folder may be opened. */
static HANDLE opened(const wchar_t *path, DWORD access, DWORD how)
{
    return CreateFileW(path, access, FILE_SHARE_READ | FILE_SHARE_WRITE | FILE_SHARE_DELETE, NULL, how,
                       FILE_ATTRIBUTE_NORMAL | FILE_FLAG_BACKUP_SEMANTICS, NULL);
}

/* `open` of os/src/c.rt. The mode that may follow is not read. */
int system_open(const char *path, int flags, ...)
{
    wchar_t wide[MOST_PATH];
    int fd = free_descriptor();
    HANDLE handle;

    if (fd < 0 || widen(path, wide) == NULL)
        return -1;
    if ((flags & LINUX_ACCESS) != LINUX_RDONLY && (flags & LINUX_EXCL) == 0 && is_folder(wide))
        return failed_with(LINUX_EISDIR);
    handle = opened(wide, access_of(flags), disposition(flags));
    if (handle == INVALID_HANDLE_VALUE)
        return failed();
    files[fd] = handle;
    return fd;
}

/* Reads from a console, whose texts are UTF-16. Ctrl-Z at the start of a line ends the input. */
static int64_t read_console(HANDLE console, void *buffer, size_t room)
{
    static unsigned char held[3 * 1024];
    static size_t from, to;
    wchar_t wide[1024];
    DWORD count = 0;

    if (from == to) {
        if (!ReadConsoleW(console, wide, 1024, &count, NULL))
            return failed();
        if (count == 0 || wide[0] == 26)
            return 0;
        from = 0;
        to = (size_t)WideCharToMultiByte(CP_UTF8, 0, wide, (int)count, (char *)held, sizeof held, NULL, NULL);
    }
    if (room > to - from)
        room = to - from;
    memcpy(buffer, held + from, room);
    from += room;
    return (int64_t)room;
}

/* `read` of libc/src/lib.rt. */
int64_t system_read(int fd, void *buffer, size_t room)
{
    HANDLE handle = handle_of(fd);
    BY_HANDLE_FILE_INFORMATION known;
    DWORD done = 0, mode;

    if (GetConsoleMode(handle, &mode))
        return read_console(handle, buffer, room);
    if (ReadFile(handle, buffer, (DWORD)(room < MOST ? room : MOST), &done, NULL))
        return done;
    if (GetLastError() == ERROR_BROKEN_PIPE || GetLastError() == ERROR_HANDLE_EOF)
        return 0;
    failed();
    if (GetFileInformationByHandle(handle, &known) && (known.dwFileAttributes & FILE_ATTRIBUTE_DIRECTORY) != 0)
        error_now = LINUX_EISDIR;
    return -1;
}

/* `write` of libc/src/lib.rt. */
int64_t system_write(int fd, const void *buffer, size_t length)
{
    DWORD done = 0;

    if (!WriteFile(handle_of(fd), buffer, (DWORD)(length < MOST ? length : MOST), &done, NULL))
        return failed();
    return done;
}

/* `close` of libc/src/lib.rt. */
int system_close(int fd)
{
    HANDLE handle = handle_of(fd);

    if (handle == INVALID_HANDLE_VALUE)
        return failed_with(LINUX_EBADF);
    files[fd] = NULL;
    return CloseHandle(handle) ? 0 : failed();
}

/* `fsync` of libc/src/lib.rt. */
int system_fsync(int fd)
{
    return FlushFileBuffers(handle_of(fd)) ? 0 : failed();
}

/* `fdatasync` of libc/src/lib.rt. */
int system_fdatasync(int fd)
{
    return system_fsync(fd);
}

/* `ftruncate` of libc/src/lib.rt. */
int system_ftruncate(int fd, int64_t length)
{
    FILE_END_OF_FILE_INFO end = { .EndOfFile.QuadPart = length };

    return SetFileInformationByHandle(handle_of(fd), FileEndOfFileInfo, &end, sizeof end) ? 0 : failed();
}

/* `fchmod` of libc/src/lib.rt. Windows has no such modes. */
int system_fchmod(int fd, uint32_t mode)
{
    (void)fd, (void)mode;
    return 0;
}

/* `flock` of libc/src/lib.rt. The programs ask for no lock. */
int system_flock(int fd, int operation)
{
    (void)fd, (void)operation;
    return 0;
}

/* `isatty` of libc/src/lib.rt. */
int system_isatty(int fd)
{
    DWORD mode;

    return GetConsoleMode(handle_of(fd), &mode) != 0;
}

/* `unlink` of libc/src/lib.rt. */
int system_unlink(const char *path)
{
    wchar_t wide[MOST_PATH];

    if (widen(path, wide) == NULL)
        return -1;
    return DeleteFileW(wide) ? 0 : failed();
}

/* `rename` of libc/src/lib.rt. */
int system_rename(const char *from, const char *to)
{
    wchar_t old[MOST_PATH], new[MOST_PATH];

    if (widen(from, old) == NULL || widen(to, new) == NULL)
        return -1;
    return MoveFileExW(old, new, MOVEFILE_REPLACE_EXISTING | MOVEFILE_WRITE_THROUGH) ? 0 : failed();
}

/* `readlink` of libc/src/lib.rt. Windows follows links itself, and none is shown as one. */
int64_t system_readlink(const char *path, char *buffer, size_t room)
{
    (void)path, (void)buffer, (void)room;
    return failed_with(LINUX_EINVAL);
}

/* What Windows knows of an open file. */
static struct linux_statx facts_of(HANDLE handle)
{
    struct linux_statx stat = { .mask = LINUX_BASIC_FACTS, .links = 1, .mode = LINUX_FILE };
    BY_HANDLE_FILE_INFORMATION known;
    DWORD kind = GetFileType(handle);

    if (kind == FILE_TYPE_CHAR) {
        stat.mode = LINUX_CHARACTERS;
    } else if (kind == FILE_TYPE_PIPE) {
        stat.mode = LINUX_PIPE;
    } else if (GetFileInformationByHandle(handle, &known)) {
        stat.mode = (known.dwFileAttributes & FILE_ATTRIBUTE_DIRECTORY) != 0 ? LINUX_FOLDER : LINUX_FILE;
        stat.size = (uint64_t)known.nFileSizeHigh << 32 | known.nFileSizeLow;
        stat.number = (uint64_t)known.nFileIndexHigh << 32 | known.nFileIndexLow;
        stat.links = known.nNumberOfLinks;
    }
    return stat;
}

/* `statx` of libc/src/lib.rt: the kind, the size and the number of a file. */
int system_statx(int fd, const char *path, int flags, uint32_t mask, struct linux_statx *stat)
{
    int is_open = ((flags & LINUX_EMPTY_PATH) != 0 && path[0] == 0) || is_same(path, "/dev/stdin");
    HANDLE handle = is_open ? handle_of(path[0] == 0 ? fd : 0) : INVALID_HANDLE_VALUE;
    wchar_t wide[MOST_PATH];

    (void)mask;
    if (!is_open) {
        if (widen(path, wide) == NULL)
            return -1;
        handle = opened(wide, FILE_READ_ATTRIBUTES, OPEN_EXISTING);
    }
    if (handle == INVALID_HANDLE_VALUE)
        return is_open ? failed_with(LINUX_EBADF) : failed();
    *stat = facts_of(handle);
    if (!is_open)
        CloseHandle(handle);
    return 0;
}

/* glibc's `signal`, which the start of a program calls so that no closed pipe ends it. None does on Windows. */
int64_t system_signal(int signal, int64_t handler)
{
    (void)signal, (void)handler;
    return 0;
}

/* glibc's `__x86_get_cpuid_feature_leaf`, by which the start of a program sees whether the processor has all that the
 * rest needs: its leaf 0 is 1 of `cpuid`, and its leaf 2 is 80000001. */
const struct linux_cpu_features *system_cpu_features(uint32_t leaf)
{
    static struct linux_cpu_features found;
    uint32_t *of = found.there;

    memset(&found, 0, sizeof found);
    if ((leaf == 0 || leaf == 2) && __get_cpuid(leaf == 0 ? 1 : 0x80000001, of, of + 1, of + 2, of + 3))
        memcpy(found.usable, found.there, sizeof found.usable);
    return &found;
}

/* ---- the start ---- */

/* `main` of the proved program. */
int program_main(void);

/* The code page that a console had, or 0. */
static UINT console_page;

/* Has a console show UTF-8 and escape sequences. */
static void prepare_console(HANDLE console)
{
    DWORD mode;

    if (!GetConsoleMode(console, &mode))
        return;
    if (SetConsoleMode(console, mode | 0x0004)) /* ENABLE_VIRTUAL_TERMINAL_PROCESSING */
        shows_colors = 1;
    if (console_page == 0)
        console_page = GetConsoleOutputCP();
    SetConsoleOutputCP(CP_UTF8);
}

int main(void)
{
    static const DWORD standard[] = { STD_INPUT_HANDLE, STD_OUTPUT_HANDLE, STD_ERROR_HANDLE };
    wchar_t **words = CommandLineToArgvW(GetCommandLineW(), &argument_count);
    int status;

    arguments = words != NULL ? calloc((size_t)argument_count + 1, sizeof *arguments) : NULL;
    if (arguments == NULL)
        argument_count = 0;
    for (int i = 0; i < argument_count; i++)
        arguments[i] = narrow(words[i]);
    for (int fd = 0; fd < 3; fd++)
        files[fd] = GetStdHandle(standard[fd]);
    prepare_console(files[1]);
    prepare_console(files[2]);
    status = program_main();
    if (console_page != 0)
        SetConsoleOutputCP(console_page);
    ExitProcess((UINT)status);
}
