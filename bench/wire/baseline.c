/* What frames cost in C, the least of some rounds, in nanoseconds: a copy of as many bytes, and round trips between two
   processes over pipes, of 21 bytes and 13 back (as Syscall) and of 13 bytes and 21 back (as Wait) in turn. */
#include <stdio.h>
#include <stdlib.h>
#include <string.h>
#include <sys/wait.h>
#include <time.h>
#include <unistd.h>

enum { ROUNDS = 7, TRIPS = 20000, SHORT = 13, LONG = 21 };

static long long now(void) {
    struct timespec t;
    clock_gettime(CLOCK_MONOTONIC, &t);
    return t.tv_sec * 1000000000LL + t.tv_nsec;
}

static void copy(size_t size, int count) {
    char *from = malloc(size), *to = malloc(size);
    long long least = 1LL << 62;
    for (int i = 0; i < ROUNDS; i++) {
        memset(from, i, size);
        long long start = now();
        for (int j = 0; j < count; j++) {
            memcpy(to, from, size);
            __asm__ volatile("" : : "r"(to), "r"(from) : "memory");
        }
        long long taken = now() - start;
        if (taken < least) least = taken;
    }
    printf("C: copy of %8zu bytes %9lld.%lld ns\n", size, least / count, least * 10 / count % 10);
    free(from);
    free(to);
}

static int whole(int fd, char *bytes, int size) {
    for (int at = 0; at < size;) {
        ssize_t n = read(fd, bytes + at, size - at);
        if (n <= 0) return 0;
        at += n;
    }
    return 1;
}

static int trip(int to, int from, char *bytes, int there, int back) {
    return write(to, bytes, there) == there && whole(from, bytes, back);
}

static int answer(int from, int to, char *bytes, int there, int back) {
    return whole(from, bytes, there) && write(to, bytes, back) == back;
}

int main(void) {
    copy(21, 200000);
    copy(4096, 20000);
    copy(1048576, 100);

    int there[2], back[2];
    char bytes[LONG] = {0};
    if (pipe(there) != 0 || pipe(back) != 0) return 1;
    if (fork() == 0) {
        close(there[1]);
        while (answer(there[0], back[1], bytes, LONG, SHORT) && answer(there[0], back[1], bytes, SHORT, LONG)) {}
        _exit(0);
    }
    long long least = 1LL << 62;
    for (int i = 0; i < ROUNDS; i++) {
        long long start = now();
        for (int j = 0; j < TRIPS; j++)
            if (!trip(there[1], back[0], bytes, LONG, SHORT) || !trip(there[1], back[0], bytes, SHORT, LONG)) return 1;
        long long taken = now() - start;
        if (taken < least) least = taken;
    }
    printf("%-25s %9lld.%lld ns\n", "C: round trip", least / (2 * TRIPS), least * 5 / TRIPS % 10);
    close(there[1]);
    wait(NULL);
    return 0;
}
