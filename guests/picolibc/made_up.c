// Calls on files that the modelled Linux hasn't, made of others or made up, as guests/musl makes them; docs/GUESTS.md has
// what is worth knowing of each. A call is asked for once a program: the trace shows syscall_0x114(..) = -1 ENOSYS, which
// is what the program would call on Linux, and a kernel that has the call is used from then on.
#include <errno.h>
#include <fcntl.h>
#include <stdio.h>
#include <string.h>
#include <sys/stat.h>
#include <unistd.h>
#include "linux.h"

// Returns what the kernel answers to this call; where it hasn't it, goes on.
#define RETURN_IF_HERE(...) do { \
        static int absent; \
        if (!absent) { \
            long result = LINUX(__VA_ARGS__); \
            if (result >= 0 || errno != ENOSYS) return result; \
            absent = 1; \
        } \
    } while (0)

static int fails(int error) { errno = error; return -1; }

// Writes to `to`, of 4096 bytes, the path from the root on, without dots; there are no links that could lead elsewhere.
static int from_root(char *to, const char *path) {
    size_t length = 0;
    if (*path != '/') {
        if (!getcwd(to, 4096)) return -1;
        length = to[1] ? strlen(to) : 0;
    }
    while (*path) {
        size_t part = strcspn(path, "/");
        if (part == 2 && path[0] == '.' && path[1] == '.') {
            while (length > 0 && to[--length] != '/');
        } else if (part > 0 && !(part == 1 && path[0] == '.')) {
            if (length + part + 2 > 4096) return fails(ENAMETOOLONG);
            to[length++] = '/';
            memcpy(to + length, path, part);
            length += part;
        }
        path += part + (path[part] == '/');
    }
    to[length] = 0;
    return 0;
}

static const char *last_name(const char *path) {
    const char *slash = strrchr(path, '/');
    return slash ? slash + 1 : path;
}

// Whether two paths lead to one file, or -1.
static int same_file(const char *a, const char *b) {
    char whole_a[4096], whole_b[4096];
    if (strcmp(last_name(a), last_name(b)) != 0) return 0;
    if (from_root(whole_a, a) < 0 || from_root(whole_b, b) < 0) return -1;
    return strcmp(whole_a, whole_b) == 0;
}

static int copy(int from, int to) {
    char bytes[4096];
    ssize_t count;
    while ((count = read(from, bytes, sizeof bytes)) > 0)
        for (ssize_t at = 0, done; at < count; at += done)
            if ((done = write(to, bytes + at, count - at)) <= 0) return done < 0 ? -1 : fails(EIO);
    return count;
}

// A copy, so it isn't atomic: who is killed in it leaves a part of the new file.
int rename(const char *old, const char *new) {
    struct stat st;
    RETURN_IF_HERE(renameat2, LINUX_AT_FDCWD, old, LINUX_AT_FDCWD, new, 0);
    int same = same_file(old, new);
    if (same) return same < 0 ? -1 : stat(old, &st);
    int from = open(old, O_RDONLY);
    if (from < 0) return errno == EISDIR ? fails(EXDEV) : -1;
    int to = open(new, O_WRONLY | O_CREAT | O_TRUNC, 0644);
    int result = to < 0 ? -1 : copy(from, to), error = errno;
    close(from);
    if (to >= 0) close(to);
    return result < 0 ? fails(error) : unlink(old);
}

int truncate(const char *path, off_t length) {
    RETURN_IF_HERE(truncate, path, length);
    int fd = open(path, O_WRONLY);
    if (fd < 0) return -1;
    int result = ftruncate(fd, length), error = errno;
    close(fd);
    return result < 0 ? fails(error) : 0;
}

ssize_t pread(int fd, void *to, size_t count, off_t at) {
    RETURN_IF_HERE(pread64, fd, to, count, at);
    off_t before = lseek(fd, 0, SEEK_CUR);
    if (before < 0 || lseek(fd, at, SEEK_SET) < 0) return -1;
    ssize_t result = read(fd, to, count);
    int error = errno;
    lseek(fd, before, SEEK_SET);
    return result < 0 ? fails(error) : result;
}

ssize_t pwrite(int fd, const void *from, size_t count, off_t at) {
    RETURN_IF_HERE(pwrite64, fd, from, count, at);
    off_t before = lseek(fd, 0, SEEK_CUR);
    if (before < 0 || lseek(fd, at, SEEK_SET) < 0) return -1;
    ssize_t result = write(fd, from, count);
    int error = errno;
    lseek(fd, before, SEEK_SET);
    return result < 0 ? fails(error) : result;
}

// Nothing is lost by a crash here, and everybody may do everything.
int fsync(int fd) { RETURN_IF_HERE(fsync, fd); return 0; }
int fdatasync(int fd) { RETURN_IF_HERE(fdatasync, fd); return 0; }
int chmod(const char *path, mode_t mode) { RETURN_IF_HERE(fchmodat, LINUX_AT_FDCWD, path, mode); return 0; }
int fchmod(int fd, mode_t mode) { RETURN_IF_HERE(fchmod, fd, mode); return 0; }

// As Linux answers for a file system without links.
int link(const char *old, const char *new) {
    RETURN_IF_HERE(linkat, LINUX_AT_FDCWD, old, LINUX_AT_FDCWD, new);
    return fails(EPERM);
}
int symlink(const char *to, const char *path) { RETURN_IF_HERE(symlinkat, to, LINUX_AT_FDCWD, path); return fails(EPERM); }
ssize_t readlink(const char *path, char *to, size_t size) {
    struct stat st;
    RETURN_IF_HERE(readlinkat, LINUX_AT_FDCWD, path, to, size);
    return stat(path, &st) < 0 ? -1 : fails(EINVAL);
}
