/* SPDX-License-Identifier: EUPL-1.2 */

/*
 * Loaded before the C library (LD_PRELOAD), this lets a program fail at one of its calls on files: CRASH_AT says at which one, counted from
 * 1, and CRASH_HOW what happens there.
 *
 *   kill    the program is killed; a write has by then written half its bytes
 *   power   the same, and what was not synced is lost: bytes written, names made or renamed, bytes cut off come back. Where the program makes
 *           fewer calls, the power is lost when it ends: what it answered has to be there nevertheless
 *   part    the same, but renames last that were not synced, while new names and bytes don't
 *   fail    the call fails as on a full disk or a bad one; a write has by then written half its bytes
 *
 * Calls counted are those that change files: open with O_CREAT, write, ftruncate, rename, unlink, fsync and fdatasync. CRASH_COUNT names a file
 * that the number of calls made is written to when the program ends by itself.
 */

#define _GNU_SOURCE
#include <dlfcn.h>
#include <errno.h>
#include <fcntl.h>
#include <signal.h>
#include <stdarg.h>
#include <stdio.h>
#include <stdlib.h>
#include <string.h>
#include <sys/stat.h>
#include <sys/syscall.h>
#include <unistd.h>

enum { FILES = 64, NAME = 512 };

static long at, calls;
static const char *how = "", *count;

/* A file that was opened: how much of it is sure to last, whether its name is, and what was cut off it but may come back. */
struct known {
    int fd;
    char name[NAME];
    off_t lasting;
    int new;
    char *cut;
    size_t cut_len;
};
static struct known files[FILES];

/* A rename that may be undone: what stood at the target before, under a second name. */
static struct renamed {
    char from[NAME], to[NAME], old[NAME];
    int had_old;
} renames[FILES];
static int renamed_count;

static long raw(long number, long a, long b, long c, long d)
{
    /* The fifth are flags of linkat and renameat2; the other calls have no fifth. */
    return syscall(number, a, b, c, d, 0L);
}

__attribute__((constructor)) static void begin(void)
{
    const char *text = getenv("CRASH_AT");
    at = text ? atol(text) : 0;
    how = getenv("CRASH_HOW") ? getenv("CRASH_HOW") : "";
    count = getenv("CRASH_COUNT");
    for (int i = 0; i < FILES; i++)
        files[i].fd = -1;
    /* Not for the programs that this one starts. */
    unsetenv("LD_PRELOAD");
}

static struct known *of(int fd)
{
    for (int i = 0; i < FILES; i++)
        if (files[i].fd == fd)
            return &files[i];
    return NULL;
}

static int loses(void)
{
    return strcmp(how, "power") == 0 || strcmp(how, "part") == 0;
}

/* Undoes what was not synced, the latest first. */
static void lose(void)
{
    for (int i = 0; i < FILES; i++) {
        struct known *file = &files[i];
        struct stat now;
        if (file->fd < 0 || fstat(file->fd, &now) != 0)
            continue;
        /* Of bytes that were not synced some may last: here half of them, and where the file has an odd length none. */
        off_t unsure = now.st_size > file->lasting ? now.st_size - file->lasting : 0;
        if (unsure > 0)
            raw(SYS_ftruncate, file->fd, file->lasting + (now.st_size % 2 ? 0 : unsure / 2), 0, 0);
        if (file->cut_len > 0)
            raw(SYS_pwrite64, file->fd, (long)file->cut, (long)file->cut_len, now.st_size);
        if (file->new)
            raw(SYS_unlinkat, AT_FDCWD, (long)file->name, 0, 0);
    }
    while (strcmp(how, "power") == 0 && renamed_count-- > 0) {
        struct renamed *one = &renames[renamed_count];
        raw(SYS_renameat2, AT_FDCWD, (long)one->to, AT_FDCWD, (long)one->from);
        if (one->had_old)
            raw(SYS_renameat2, AT_FDCWD, (long)one->old, AT_FDCWD, (long)one->to);
    }
}

__attribute__((destructor)) static void end(void)
{
    char text[32];
    if (loses() && at > calls)
        lose();
    if (count == NULL)
        return;
    int fd = (int)raw(SYS_openat, AT_FDCWD, (long)count, O_WRONLY | O_CREAT | O_TRUNC, 0644);
    int length = snprintf(text, sizeof text, "%ld\n", calls);
    if (fd >= 0 && raw(SYS_write, fd, (long)text, length, 0) == length)
        close(fd);
}

/* Counts a call; 1 where it is to fail. */
static int now(void)
{
    if (++calls != at)
        return 0;
    if (strcmp(how, "fail") == 0)
        return 1;
    if (loses())
        lose();
    raise(SIGKILL);
    return 0;
}

static void forget_old(void)
{
    while (renamed_count > 0)
        if (renames[--renamed_count].had_old)
            raw(SYS_unlinkat, AT_FDCWD, (long)renames[renamed_count].old, 0, 0);
}

static int opened(const char *name, int flags, mode_t mode)
{
    struct stat before;
    int is_new = (flags & O_CREAT) && lstat(name, &before) != 0;
    if ((flags & O_CREAT) && now()) {
        errno = ENOSPC;
        return -1;
    }
    int fd = (int)raw(SYS_openat, AT_FDCWD, (long)name, flags, mode);
    struct known *file = fd >= 0 ? of(-1) : NULL;
    struct stat own;
    if (file != NULL && fstat(fd, &own) == 0 && (S_ISREG(own.st_mode) || S_ISDIR(own.st_mode)) && strlen(name) < NAME) {
        file->fd = fd;
        strcpy(file->name, name);
        file->lasting = own.st_size;
        file->new = is_new;
        file->cut_len = 0;
    }
    return fd;
}

int open(const char *name, int flags, ...)
{
    va_list more;
    va_start(more, flags);
    mode_t mode = (mode_t)va_arg(more, int);
    va_end(more);
    return opened(name, flags, mode);
}

int open64(const char *name, int flags, ...)
{
    va_list more;
    va_start(more, flags);
    mode_t mode = (mode_t)va_arg(more, int);
    va_end(more);
    return opened(name, flags, mode);
}

int close(int fd)
{
    /* What is not synced may be lost after the file is closed too, so a second descriptor of it is kept. */
    struct known *file = fd >= 0 ? of(fd) : NULL;
    struct stat own;
    if (file != NULL && fstat(fd, &own) == 0)
        file->fd = file->new || own.st_size > file->lasting ? fcntl(fd, F_DUPFD_CLOEXEC, 100) : -1;
    return (int)raw(SYS_close, fd, 0, 0, 0);
}

ssize_t write(int fd, const void *bytes, size_t length)
{
    struct known *file = fd >= 0 ? of(fd) : NULL;
    if (file == NULL)
        return raw(SYS_write, fd, (long)bytes, (long)length, 0);
    if (calls + 1 == at)
        raw(SYS_write, fd, (long)bytes, (long)(length / 2), 0);
    if (now()) {
        errno = ENOSPC;
        return -1;
    }
    return raw(SYS_write, fd, (long)bytes, (long)length, 0);
}

static int cut(int fd, off_t length)
{
    struct known *file = of(fd);
    struct stat before;
    if (now()) {
        errno = EIO;
        return -1;
    }
    if (file != NULL && fstat(fd, &before) == 0 && before.st_size > length && length <= file->lasting) {
        off_t lost = before.st_size - length;
        file->cut = realloc(file->cut, (size_t)lost);
        file->cut_len = pread(fd, file->cut, (size_t)lost, length) == lost ? (size_t)lost : 0;
        file->lasting = length;
    }
    return (int)raw(SYS_ftruncate, fd, length, 0, 0);
}

int ftruncate(int fd, off_t length)
{
    return cut(fd, length);
}

int ftruncate64(int fd, off_t length)
{
    return cut(fd, length);
}

static int synced(int fd, long number)
{
    struct known *file = of(fd);
    struct stat own;
    if (now()) {
        errno = EIO;
        return -1;
    }
    if (file != NULL && fstat(fd, &own) == 0) {
        file->lasting = own.st_size;
        file->cut_len = 0;
        if (S_ISDIR(own.st_mode)) {
            forget_old();
            for (int i = 0; i < FILES; i++)
                files[i].new = 0;
        }
    }
    return (int)raw(number, fd, 0, 0, 0);
}

int fsync(int fd)
{
    return synced(fd, SYS_fsync);
}

int fdatasync(int fd)
{
    return synced(fd, SYS_fdatasync);
}

int rename(const char *from, const char *to)
{
    if (now()) {
        errno = ENOSPC;
        return -1;
    }
    if (strcmp(how, "power") == 0 && renamed_count < FILES && strlen(to) + 8 < NAME && strlen(from) < NAME) {
        struct renamed *one = &renames[renamed_count++];
        strcpy(one->from, from);
        strcpy(one->to, to);
        strcpy(one->old, to);
        strcat(one->old, ".old");
        raw(SYS_unlinkat, AT_FDCWD, (long)one->old, 0, 0);
        one->had_old = raw(SYS_linkat, AT_FDCWD, (long)to, AT_FDCWD, (long)one->old) == 0;
    }
    return (int)raw(SYS_renameat2, AT_FDCWD, (long)from, AT_FDCWD, (long)to);
}

int unlink(const char *name)
{
    if (now()) {
        errno = EIO;
        return -1;
    }
    return (int)raw(SYS_unlinkat, AT_FDCWD, (long)name, 0, 0);
}
