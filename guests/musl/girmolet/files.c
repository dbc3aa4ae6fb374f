/* Calls on files that are made of others. */
#define _GNU_SOURCE
#include <errno.h>
#include <fcntl.h>
#include <limits.h>
#include <poll.h>
#include <string.h>
#include <sys/uio.h>
#include "girmolet.h"

static size_t least(size_t a, size_t b) { return a < b ? a : b; }

/* One read or write for one readv or writev, so that occurrences are those of the program on Linux. */
static long vector(long number, long fd, const struct iovec *parts, long count)
{
    size_t sum = 0, at = 0;
    long last = 0;
    if (count < 0 || count > IOV_MAX) return -EINVAL;
    for (long i = 0; i < count; i++) if (parts[i].iov_len) { sum += parts[i].iov_len; last = i; }
    if (count > 0 && sum == parts[last].iov_len) return CALL_NUMBER(number, fd, parts[last].iov_base, sum);
    sum = least(sum, 65536); /* all that a call takes */
    char bytes[sum + 1];
    if (number == SYS_write) for (long i = 0; i < count && at < sum; i++) {
        size_t part = least(parts[i].iov_len, sum - at);
        memcpy(bytes + at, parts[i].iov_base, part);
        at += part;
    }
    long result = CALL_NUMBER(number, fd, bytes, sum);
    if (number == SYS_read && result > 0) for (long i = 0; i < count && at < (size_t)result; i++) {
        size_t part = least(parts[i].iov_len, result - at);
        memcpy(parts[i].iov_base, bytes + at, part);
        at += part;
    }
    return result;
}

static long at_offset(long number, const long *a)
{
    long before = CALL(lseek, a[0], 0, 1);
    if (before < 0) return before;
    long result = CALL(lseek, a[0], a[3], 0);
    if (result < 0) return result;
    result = CALL_NUMBER(number, a[0], a[1], a[2]);
    CALL(lseek, a[0], before, 0);
    return result;
}

static long truncate_(long path, long length)
{
    long fd = CALL(openat, AT_FDCWD, path, O_WRONLY);
    if (fd < 0) return fd;
    long result = CALL(ftruncate, fd, length);
    CALL(close, fd);
    return result;
}

static long copy(long from, long to)
{
    char bytes[4096];
    long count;
    while ((count = CALL(read, from, bytes, sizeof bytes)) > 0)
        for (long at = 0, done; at < count; at += done)
            if ((done = CALL(write, to, bytes + at, count - at)) <= 0) return done < 0 ? done : -EIO;
    return count;
}

/* A copy, so it isn't atomic: who is killed in it leaves a part of the new file. */
static long rename_(const long *a, long flags)
{
    char st[128];
    if (flags) return -EINVAL;
    if (__girmolet_number_of((const char *)a[1]) == __girmolet_number_of((const char *)a[3]))
        return CALL(newfstatat, a[0], a[1], st);
    long from = CALL(openat, a[0], a[1], O_RDONLY);
    if (from < 0) return from == -EISDIR ? -EXDEV : from;
    long to = CALL(openat, a[2], a[3], O_WRONLY | O_CREAT | O_TRUNC, 0644);
    long result = to < 0 ? to : copy(from, to);
    CALL(close, from);
    if (to >= 0) CALL(close, to);
    return result < 0 ? result : CALL(unlinkat, a[0], a[1], 0);
}

/* Every descriptor is ready; a read of it waits. */
static long poll_(struct pollfd *all, long count, const long *span, const unsigned long *mask)
{
    if (!count && !span) return __girmolet_suspend(mask);
    for (long i = 0; i < count; i++) all[i].revents = all[i].events;
    return count ? count : __girmolet_passed(span);
}

long __girmolet_of_others(long number, const long *a)
{
    char st[128];
    long result;
    switch (number) {
    case SYS_readv: return vector(SYS_read, a[0], (const struct iovec *)a[1], a[2]);
    case SYS_writev: return vector(SYS_write, a[0], (const struct iovec *)a[1], a[2]);
    case SYS_pread64: return at_offset(SYS_read, a);
    case SYS_pwrite64: return at_offset(SYS_write, a);
    case SYS_truncate: return truncate_(a[0], a[1]);
    case SYS_renameat2: return rename_(a, a[4]);
    case SYS_fcntl: return __girmolet_fcntl(a[0], a[1], a[2]);
    case SYS_faccessat: case SYS_faccessat2: return CALL(newfstatat, a[0], a[1], st);
    case SYS_readlinkat: /* there are no links */
        result = CALL(newfstatat, a[0], a[1], st);
        return result < 0 ? result : -EINVAL;
    case SYS_rt_sigsuspend: return __girmolet_suspend((const unsigned long *)a[0]);
    case SYS_ppoll: return poll_((struct pollfd *)a[0], a[1], (const long *)a[2], (const unsigned long *)a[3]);
    }
    return NOT_MINE;
}
