// Threads that take turns under one mutex, each as many. A turn takes the lock, finds the next process in the cycle that
// is able, runs one instruction of its loop, notes whose turn it was, and lets the lock go. The threads start together.
// Usage: baseline THREADS TURNS PROCESSES
#include <pthread.h>
#include <stdint.h>
#include <stdio.h>
#include <stdlib.h>

// again: addi t0, t0, -1; bnez t0, again
static const uint32_t program[] = {0xfff28293, 0xfe029ee3};

static struct process {
    int able;
    uint64_t pc, registers[32];
} table[64];

static pthread_mutex_t lock = PTHREAD_MUTEX_INITIALIZER;
static pthread_barrier_t start;
static long quota, processes, last, count;
static unsigned *turns;

static void step(struct process *it)
{
    uint32_t word = program[it->pc / 4 % 2];
    unsigned rd = word >> 7 & 31, rs1 = word >> 15 & 31, rs2 = word >> 20 & 31;
    switch (word & 127) {
    case 0x13:
        if (rd)
            it->registers[rd] = it->registers[rs1] + ((int32_t)word >> 20);
        it->pc += 4;
        break;
    case 0x63:
        if (it->registers[rs1] != it->registers[rs2])
            it->pc -= 4;
        else
            it->pc += 4;
        break;
    }
}

static void turn(void)
{
    for (long passed = 0; passed < processes; passed++) {
        last = last + 1 == processes ? 0 : last + 1;
        if (table[last].able) {
            turns[count++] = last;
            step(&table[last]);
            return;
        }
    }
}

static void *work(void *unused)
{
    pthread_barrier_wait(&start);
    for (long i = 0; i < quota; i++) {
        pthread_mutex_lock(&lock);
        turn();
        pthread_mutex_unlock(&lock);
    }
    return unused;
}

int main(int count_of_words, char **words)
{
    if (count_of_words != 4)
        return 2;
    int threads = atoi(words[1]);
    quota = atol(words[2]) / threads;
    processes = atol(words[3]);
    turns = malloc(quota * threads * sizeof *turns);
    pthread_barrier_init(&start, 0, threads);
    for (long i = 0; i < processes; i++)
        table[i] = (struct process){1, 0, {[5] = 1ull << 40}};
    pthread_t made[64];
    for (int i = 0; i < threads; i++)
        if (pthread_create(&made[i], 0, work, 0))
            return 1;
    for (int i = 0; i < threads; i++)
        pthread_join(made[i], 0);
    printf("%ld\n", count);
    return 0;
}
