/* Descriptors, with what the kernel doesn't tell of them: flags, and a number for the file. */
#define _GNU_SOURCE
#include <errno.h>
#include <fcntl.h>
#include "girmolet.h"

#define DESCRIPTORS 256

static struct descriptor {
    unsigned long number;   /* the file's, for st_ino; 0 for what was open when the program began */
    unsigned flags;         /* access and O_APPEND */
    unsigned char cloexec;  /* FD_CLOEXEC as the program wants it .. */
    unsigned char done;     /* .. and as the kernel has it: they differ until a program is executed */
} descriptors[DESCRIPTORS];

static struct descriptor *descriptor(long fd) { return &descriptors[fd & (DESCRIPTORS - 1)]; }

static long opened(long fd, unsigned long number, long flags)
{
    unsigned char cloexec = (flags & O_CLOEXEC) != 0;
    if (fd >= 0) *descriptor(fd) = (struct descriptor){number, flags & (O_ACCMODE | O_APPEND), cloexec, cloexec};
    return fd;
}

static long duplicated(long fd, long of, long flags)
{
    return opened(fd, descriptor(of)->number, descriptor(of)->flags | (flags & O_CLOEXEC));
}

/* O_NOFOLLOW, O_LARGEFILE, O_NONBLOCK, O_SYNC say nothing here, and the kernel refuses them. */
static long open_(long at, const char *path, long flags, long mode)
{
    const long known = (O_ACCMODE & ~O_PATH) | O_CREAT | O_EXCL | O_TRUNC | O_APPEND | O_CLOEXEC;
    if ((flags & O_TMPFILE) == O_TMPFILE) return -EOPNOTSUPP;
    long fd = CALL(openat, at, path, flags & known, mode);
    if (fd >= 0 && flags & O_DIRECTORY) {
        CALL(close, fd);
        return -ENOTDIR;
    }
    return fd < 0 ? fd : opened(fd, __girmolet_number_of(path), flags);
}

/* Both ends of a pipe have its number, which is even; those of paths are odd. */
static long pipe_(int *ends, long flags)
{
    static unsigned long pipes;
    long result = CALL(pipe2, ends, flags & O_CLOEXEC);
    if (result < 0) return result;
    pipes += 2;
    opened(ends[0], pipes, O_RDONLY | (flags & O_CLOEXEC));
    opened(ends[1], pipes, O_WRONLY | (flags & O_CLOEXEC));
    return 0;
}

/* The lowest free descriptor from `least` on. */
static long duplicate_from(long fd, long least, long flags)
{
    char st[128];
    long new = least;
    if (least < 0 || least >= DESCRIPTORS) return -EINVAL;
    while (new < DESCRIPTORS && (new == fd || CALL(fstat, new, st) != -EBADF)) new++;
    return new == DESCRIPTORS ? -EMFILE : duplicated(CALL(dup3, fd, new, flags), fd, flags);
}

long __girmolet_fcntl(long fd, long what, long argument)
{
    char st[128];
    long result = CALL(fstat, fd, st);
    if (result < 0) return result;
    switch (what) {
    case F_DUPFD: return duplicate_from(fd, argument, 0);
    case F_DUPFD_CLOEXEC: return duplicate_from(fd, argument, O_CLOEXEC);
    case F_GETFD: return descriptor(fd)->cloexec ? FD_CLOEXEC : 0;
    case F_SETFD: descriptor(fd)->cloexec = (argument & FD_CLOEXEC) != 0; return 0;
    case F_GETFL: return descriptor(fd)->number ? descriptor(fd)->flags : O_RDWR;
    case F_SETFL: case F_SETLK: case F_SETLKW: return 0;
    case F_GETLK: ((struct flock *)argument)->l_type = F_UNLCK; return 0;
    }
    return -EINVAL;
}

/* What F_SETFD asked for is done here, by way of another descriptor, so that it isn't seen as calls of dup3 before. */
static long execute(const long *a)
{
    for (long fd = 0; fd < DESCRIPTORS; fd++) {
        struct descriptor *it = descriptor(fd);
        if (it->cloexec == it->done) continue;
        long other = CALL(dup, fd);
        if (other < 0) return other;
        long result = CALL(dup3, other, fd, it->cloexec ? O_CLOEXEC : 0);
        CALL(close, other);
        if (result < 0) return result;
        it->done = it->cloexec;
    }
    return CALL(execve, a[0], a[1], a[2]);
}

/* The kernel's status has no numbers of files, links and times: by it tar, cp and diff would take each file for every
   other. */
static long status(long result, long *st, unsigned long number)
{
    enum { DEVICE, NUMBER, MODE_AND_LINKS, SIZE = 6, BLOCKS = 8, ACCESSED = 9, MODIFIED = 11, CHANGED = 13 };
    if (result < 0) return result;
    st[DEVICE] = 1;
    st[NUMBER] = number;
    ((int *)&st[MODE_AND_LINKS])[1] = 1;
    st[BLOCKS] = (st[SIZE] + 511) / 512;
    st[ACCESSED] = st[MODIFIED] = st[CHANGED] = CLOCK_AT_START;
    return result;
}

static long status_at(const long *a)
{
    const char *path = (const char *)a[1];
    if (a[3] & AT_EMPTY_PATH && !*path)
        return status(CALL(fstat, a[0], a[2]), (long *)a[2], descriptor(a[0])->number);
    long result = CALL(newfstatat, a[0], path, a[2], a[3] & AT_SYMLINK_NOFOLLOW);
    return result < 0 ? result : status(result, (long *)a[2], __girmolet_number_of(path));
}

long __girmolet_descriptors(long number, const long *a)
{
    long result;
    switch (number) {
    case SYS_openat: return open_(a[0], (const char *)a[1], a[2], a[3]);
    case SYS_dup: return duplicated(CALL(dup, a[0]), a[0], 0);
    case SYS_dup3: return duplicated(CALL(dup3, a[0], a[1], a[2]), a[0], a[2]);
    case SYS_pipe2: return pipe_((int *)a[0], a[1]);
    case SYS_close:
        result = CALL(close, a[0]);
        if (result == 0) *descriptor(a[0]) = (struct descriptor){0};
        return result;
    case SYS_fstat: return status(CALL(fstat, a[0], a[1]), (long *)a[1], descriptor(a[0])->number);
    case SYS_newfstatat: return status_at(a);
    case SYS_chdir: return __girmolet_chdir((const char *)a[0]);
    case SYS_execve: return execute(a);
    }
    return NOT_MINE;
}
