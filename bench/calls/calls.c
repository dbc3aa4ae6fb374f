// Makes the same calls as the guests of bench/calls, in the current folder. Usage: calls ROW TIMES NODES
#include <fcntl.h>
#include <stdio.h>
#include <stdlib.h>
#include <string.h>
#include <sys/syscall.h>
#include <unistd.h>

static char buffer[65536];

static void fail(const char *what) {
    perror(what);
    exit(1);
}

static int made(const char *path, size_t size) {
    int fd = open(path, O_RDWR | O_CREAT | O_TRUNC, 0644);
    if (fd < 0 || write(fd, buffer, size) != (ssize_t)size || lseek(fd, 0, SEEK_SET) != 0) fail(path);
    return fd;
}

int main(int argc, char **argv) {
    if (argc != 4) return 2;
    const char *row = argv[1];
    long times = atol(argv[2]);
    for (long i = 0; i < atol(argv[3]); i++) {
        char name[32];
        snprintf(name, sizeof name, "n%ld", i);
        close(made(name, 0));
    }
    int fd = made("f", sizeof buffer);
    int ends[2];
    if (pipe(ends) != 0) fail("pipe");
    size_t size = strstr(row, "65536") ? 65536 : 1;
    for (long i = 0; i < times; i++) {
        if (strcmp(row, "getpid") == 0) {
            syscall(SYS_getpid);
        } else if (strncmp(row, "write", 5) == 0) {
            if (write(fd, buffer, size) < 0 || lseek(fd, 0, SEEK_SET) < 0) fail("write");
        } else if (strncmp(row, "read", 4) == 0) {
            if (read(fd, buffer, size) < 0 || lseek(fd, 0, SEEK_SET) < 0) fail("read");
        } else if (strncmp(row, "open", 4) == 0) {
            int other = open("f", O_RDONLY);
            if (other < 0 || close(other) != 0) fail("open");
        } else {
            if (write(ends[1], buffer, size) < 0 || read(ends[0], buffer, size) < 0) fail("pipe");
        }
    }
    return 0;
}
