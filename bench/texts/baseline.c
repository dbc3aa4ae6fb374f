/* The same lines by printf: what a line costs in C, the least of some rounds, in nanoseconds. */
#include <stdio.h>
#include <string.h>
#include <time.h>

enum { ROUNDS = 7, LINES = 20000 };

static char out[65536];
static char *volatile strings[32];

static int padding(int column) { return column < 40 ? 40 - column : 1; }

static int getpid_line(void) {
    int n = snprintf(out, sizeof out, "%s()", "getpid");
    return n + snprintf(out + n, sizeof out - n, "%*s= %ld\n", padding(n), "", 1L);
}

static int write_line(void) {
    char quoted[128];
    int at = 0;
    static const char *volatile bytes = "thirty-two bytes, with a\n newline";
    for (int i = 0; i < 32; i++) {
        unsigned char c = bytes[i];
        if (c == '\n') at += snprintf(quoted + at, sizeof quoted - at, "\\n");
        else quoted[at++] = c;
    }
    quoted[at] = 0;
    int n = snprintf(out, sizeof out, "%s(%d, \"%s\", %lu)", "write", 1, quoted, 32UL);
    return n + snprintf(out + n, sizeof out - n, "%*s= %ld\n", padding(n), "", 32L);
}

static int execve_line(void) {
    int n = snprintf(out, sizeof out, "%s(\"%s\", [", "execve", "/bin/program");
    for (int i = 0; i < 32; i++)
        n += snprintf(out + n, sizeof out - n, "%s\"%s\"", i ? ", " : "", strings[i]);
    n += snprintf(out + n, sizeof out - n, "], 0x%lx /* %d vars */)", 0x4000UL, 0);
    return n + snprintf(out + n, sizeof out - n, "%*s= %ld\n", padding(n), "", 0L);
}

static double now(void) {
    struct timespec t;
    clock_gettime(CLOCK_MONOTONIC, &t);
    return t.tv_sec * 1e9 + t.tv_nsec;
}

static void measure(const char *name, int (*line)(void), int count) {
    double least = 1e18;
    int length = 0;
    for (int r = 0; r < ROUNDS; r++) {
        double start = now();
        for (int i = 0; i < count; i++) length = line();
        double time = (now() - start) / count;
        if (time < least) least = time;
    }
    printf("%-24s %9.1f ns  (%d bytes)\n", name, least, length);
}

int main(void) {
    for (int i = 0; i < 32; i++) strings[i] = "argument number 7";
    measure("getpid", getpid_line, LINES * 10);
    measure("write of 32 bytes", write_line, LINES * 5);
    measure("execve with 32 strings", execve_line, LINES);
    return 0;
}
