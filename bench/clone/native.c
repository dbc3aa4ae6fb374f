// The work of the guest of `run` by this machine's own kernel: native KIB DESCRIPTORS ROUNDS CHILDREN writes to each
// page of so many KiB and has so many descriptors, then ROUNDS times makes a child that ends at once and waits for it,
// and then has CHILDREN children at once. It prints the microseconds of processor time that a round takes, and the KiB
// that all processes had in RAM in the end, what they share counted once. `native peak PROGRAM WORDS..` runs a program and
// prints the most KiB that it had in RAM: a child of python would be told to have had python's.
#define _GNU_SOURCE
#include <stdio.h>
#include <stdlib.h>
#include <string.h>
#include <sys/mman.h>
#include <sys/resource.h>
#include <sys/wait.h>
#include <unistd.h>

static double used(int who) {
    struct rusage usage;
    getrusage(who, &usage);
    return (usage.ru_utime.tv_sec + usage.ru_stime.tv_sec) * 1e6 + usage.ru_utime.tv_usec + usage.ru_stime.tv_usec;
}

static long share_of(pid_t pid) {
    char path[64], line[256];
    long share = 0;
    snprintf(path, sizeof path, "/proc/%d/smaps_rollup", pid);
    FILE *file = fopen(path, "r");
    if (!file) {
        perror(path);
        exit(1);
    }
    while (fgets(line, sizeof line, file))
        if (sscanf(line, "Pss: %ld kB", &share) == 1)
            break;
    fclose(file);
    return share;
}

static pid_t begin(void) {
    pid_t pid = fork();
    if (pid < 0) {
        perror("fork");
        exit(1);
    }
    return pid;
}

static int peak_of(char **words) {
    int status;
    struct rusage usage;
    pid_t pid = begin();
    if (pid == 0) {
        execv(words[0], words);
        _exit(127);
    }
    if (wait4(pid, &status, 0, &usage) != pid || status != 0)
        return 1;
    printf("%ld\n", usage.ru_maxrss);
    return 0;
}

int main(int count, char **words) {
    if (count > 2 && strcmp(words[1], "peak") == 0)
        return peak_of(words + 2);
    if (count != 5)
        return 2;
    size_t size = (size_t)atol(words[1]) * 1024;
    int descriptors = atoi(words[2]), rounds = atoi(words[3]), children = atoi(words[4]), ends[2];
    char *room = mmap(NULL, size, PROT_READ | PROT_WRITE, MAP_PRIVATE | MAP_ANONYMOUS, -1, 0);
    if (room == MAP_FAILED || madvise(room, size, MADV_NOHUGEPAGE) || pipe(ends)) {
        perror("room");
        return 1;
    }
    for (size_t at = 0; at < size; at += 4096)
        room[at] = 1;
    for (int open = 5; open < descriptors; open++)
        dup(1);

    double start = used(RUSAGE_SELF) + used(RUSAGE_CHILDREN);
    for (int round = 0; round < rounds; round++) {
        pid_t pid = begin();
        if (pid == 0)
            _exit(0);
        waitpid(pid, NULL, 0);
    }
    double taken = used(RUSAGE_SELF) + used(RUSAGE_CHILDREN) - start;

    pid_t pids[children + 1];
    for (int child = 0; child < children; child++) {
        pids[child] = begin();
        if (pids[child] == 0) {
            char byte;
            close(ends[1]);
            _exit(read(ends[0], &byte, 1) != 0);
        }
    }
    usleep(50000);
    long share = share_of(getpid());
    for (int child = 0; child < children; child++)
        share += share_of(pids[child]);
    close(ends[1]);
    while (wait(NULL) > 0) {
    }
    printf("%.1f %ld\n", taken / rounds, share);
    return 0;
}
