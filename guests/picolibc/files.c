// Files and directories. Picolibc numbers AT_FDCWD and the flags of open in its own way.
#ifndef _GNU_SOURCE
#define _GNU_SOURCE // AT_FDCWD, whatever -std= says
#endif
#include <errno.h>
#include <fcntl.h>
#include <stdarg.h>
#include <string.h>
#include <sys/stat.h>
#include <unistd.h>
#include "linux.h"

static int directory(int fd) { return fd == AT_FDCWD ? LINUX_AT_FDCWD : fd; }

static int cloexec(int flags) { return flags & O_CLOEXEC ? 0x80000 : 0; }

static int open_at(int fd, const char *path, int flags, int mode) {
    int linux_flags = (flags & O_ACCMODE) | (flags & O_CREAT ? 0x40 : 0) | (flags & O_EXCL ? 0x80 : 0)
        | (flags & O_TRUNC ? 0x200 : 0) | (flags & O_APPEND ? 0x400 : 0) | cloexec(flags);
    return LINUX(openat, directory(fd), path, linux_flags, mode);
}

int openat(int fd, const char *path, int flags, ...) {
    va_list rest;
    va_start(rest, flags);
    int mode = flags & O_CREAT ? va_arg(rest, int) : 0;
    va_end(rest);
    return open_at(fd, path, flags, mode);
}

int open(const char *path, int flags, ...) {
    va_list rest;
    va_start(rest, flags);
    int mode = flags & O_CREAT ? va_arg(rest, int) : 0;
    va_end(rest);
    return open_at(AT_FDCWD, path, flags, mode);
}

int creat(const char *path, mode_t mode) { return open_at(AT_FDCWD, path, O_WRONLY | O_CREAT | O_TRUNC, mode); }
ssize_t read(int fd, void *to, size_t count) { return LINUX(read, fd, to, count); }
ssize_t write(int fd, const void *from, size_t count) { return LINUX(write, fd, from, count); }
int close(int fd) { return LINUX(close, fd); }
off_t lseek(int fd, off_t offset, int whence) { return LINUX(lseek, fd, offset, whence); }
int ftruncate(int fd, off_t length) { return LINUX(ftruncate, fd, length); }

int unlinkat(int fd, const char *path, int flags) {
    return LINUX(unlinkat, directory(fd), path, flags & AT_REMOVEDIR ? 0x200 : 0);
}
int unlink(const char *path) { return unlinkat(AT_FDCWD, path, 0); }
int rmdir(const char *path) { return unlinkat(AT_FDCWD, path, AT_REMOVEDIR); }
int mkdir(const char *path, mode_t mode) { return LINUX(mkdirat, LINUX_AT_FDCWD, path, mode); }
int chdir(const char *path) { return LINUX(chdir, path); }
char *getcwd(char *to, size_t size) { return LINUX(getcwd, to, size) < 0 ? NULL : to; }

int dup(int fd) { return LINUX(dup, fd); }
int dup3(int old, int new, int flags) { return LINUX(dup3, old, new, cloexec(flags)); }
int dup2(int old, int new) { // dup3 refuses equal numbers
    struct stat st;
    if (old == new) return fstat(old, &st) < 0 ? -1 : new;
    return dup3(old, new, 0);
}
int pipe2(int ends[2], int flags) { return LINUX(pipe2, ends, cloexec(flags)); }
int pipe(int ends[2]) { return pipe2(ends, 0); }

// Linux's status is 128 bytes: the mode stands at 16, the size at 48.
static int status(const char *bytes, struct stat *st) {
    memset(st, 0, sizeof *st);
    memcpy(&st->st_mode, bytes + 16, 4);
    memcpy(&st->st_size, bytes + 48, 8);
    st->st_nlink = 1;
    return 0;
}
int fstat(int fd, struct stat *st) {
    char bytes[128];
    return LINUX(fstat, fd, bytes) < 0 ? -1 : status(bytes, st);
}
int stat(const char *path, struct stat *st) {
    char bytes[128];
    return LINUX(newfstatat, LINUX_AT_FDCWD, path, bytes, 0) < 0 ? -1 : status(bytes, st);
}
int lstat(const char *path, struct stat *st) { return stat(path, st); } // there are no links
int access(const char *path, int mode) { // everybody may do everything
    struct stat st;
    (void)mode;
    return stat(path, &st);
}
int isatty(int fd) {
    struct stat st;
    if (fstat(fd, &st) < 0) return 0;
    if (!S_ISCHR(st.st_mode)) errno = ENOTTY;
    return S_ISCHR(st.st_mode);
}
