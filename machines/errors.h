/*
 * The error of the last call of the system, and the texts of errors, for the C files of systems that have neither in
 * Linux's words. The kit's os/src/c.rt declares the functions.
 */
#ifndef ERRORS_H
#define ERRORS_H

#include "linux.h"

/* The error of the last call of the system. */
static int error_now;

/* Answers -1, with an error. */
static inline int failed_with(int error)
{
    error_now = error;
    return -1;
}

/* `rattle_errno` of os/src/c.rt: the error of the last call of the system. */
int rattle_errno(void)
{
    return error_now;
}

/* `rattle_set_errno` of os/src/c.rt. */
void rattle_set_errno(int error)
{
    error_now = error;
}

/* glibc's text of an error. */
static inline const char *text_of_error(int error)
{
    switch (error) {
    case 0: return "Success";
    case LINUX_EPERM: return "Operation not permitted";
    case LINUX_ENOENT: return "No such file or directory";
    case LINUX_EINTR: return "Interrupted system call";
    case LINUX_EIO: return "Input/output error";
    case LINUX_ENXIO: return "No such device or address";
    case LINUX_EBADF: return "Bad file descriptor";
    case LINUX_EAGAIN: return "Resource temporarily unavailable";
    case LINUX_ENOMEM: return "Cannot allocate memory";
    case LINUX_EACCES: return "Permission denied";
    case LINUX_EBUSY: return "Device or resource busy";
    case LINUX_EEXIST: return "File exists";
    case LINUX_EXDEV: return "Invalid cross-device link";
    case LINUX_ENOTDIR: return "Not a directory";
    case LINUX_EISDIR: return "Is a directory";
    case LINUX_EINVAL: return "Invalid argument";
    case LINUX_ENFILE: return "Too many open files in system";
    case LINUX_EMFILE: return "Too many open files";
    case LINUX_ETXTBSY: return "Text file busy";
    case LINUX_EFBIG: return "File too large";
    case LINUX_ENOSPC: return "No space left on device";
    case LINUX_ESPIPE: return "Illegal seek";
    case LINUX_EROFS: return "Read-only file system";
    case LINUX_EMLINK: return "Too many links";
    case LINUX_EPIPE: return "Broken pipe";
    case LINUX_ENAMETOOLONG: return "File name too long";
    case LINUX_ENOSYS: return "Function not implemented";
    case LINUX_ENOTEMPTY: return "Directory not empty";
    case LINUX_ELOOP: return "Too many levels of symbolic links";
    case LINUX_EOVERFLOW: return "Value too large for defined data type";
    case LINUX_EOPNOTSUPP: return "Operation not supported";
    case LINUX_EDQUOT: return "Disk quota exceeded";
    default: return "Unknown error";
    }
}

/* `__xpg_strerror_r` of os/src/c.rt: puts the text of an error in a buffer, with a zero byte at its end where both fit.
 * Answers 0, or ERANGE. */
int system_strerror_r(int error, char *buffer, size_t room)
{
    const char *text = text_of_error(error);
    size_t n = 0;

    if (room == 0)
        return LINUX_ERANGE;
    for (; text[n] != 0 && n < room - 1; n++)
        buffer[n] = text[n];
    buffer[n] = 0;
    return text[n] == 0 ? 0 : LINUX_ERANGE;
}

#endif
