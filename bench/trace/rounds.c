/* What is least for a traced call of getpid over pipes: 100,000 times the frames that its requests and replies have, between
   two programs that do nothing else. "alone": each request is answered before the next goes out, six round trips. "ahead":
   the request behind each Syscall, which is Wait, goes out with it, four. "held": the reply to Syscall is held back too, and
   goes out with that to Wait. */
#include <string.h>
#include <sys/wait.h>
#include <unistd.h>

/* Syscall and its Done, Wait and its status, GetRegs and the registers. */
enum { CALLS = 100000, SYSCALL = 21, DONE = 13, WAIT = 13, STATUS = 21, GETREGS = 17, REGISTERS = 269 };

static char bytes[REGISTERS];

static void take(int fd, int size) {
    for (int at = 0; at < size;) {
        ssize_t n = read(fd, bytes + at, size - at);
        if (n <= 0) _exit(0);
        at += n;
    }
}

static void give(int fd, int size) {
    if (write(fd, bytes, size) != size) _exit(1);
}

/* One stop, at the tracer's end (ask) or at the host's. */
static void ask(int to, int from, const char *how) {
    if (strcmp(how, "alone") == 0) {
        give(to, SYSCALL), take(from, DONE), give(to, WAIT), take(from, STATUS);
    } else if (strcmp(how, "ahead") == 0) {
        give(to, SYSCALL + WAIT), take(from, DONE), take(from, STATUS);
    } else {
        give(to, SYSCALL + WAIT), take(from, DONE + STATUS);
    }
    give(to, GETREGS), take(from, REGISTERS);
}

static void answer(int from, int to, const char *how) {
    if (strcmp(how, "alone") == 0) {
        take(from, SYSCALL), give(to, DONE), take(from, WAIT), give(to, STATUS);
    } else if (strcmp(how, "ahead") == 0) {
        take(from, SYSCALL + WAIT), give(to, DONE), give(to, STATUS);
    } else {
        take(from, SYSCALL + WAIT), give(to, DONE + STATUS);
    }
    take(from, GETREGS), give(to, REGISTERS);
}

int main(int count, char **words) {
    const char *how = count > 1 ? words[1] : "alone";
    int there[2], back[2];
    if (pipe(there) != 0 || pipe(back) != 0) return 1;
    if (fork() == 0) {
        close(there[1]);
        for (;;) answer(there[0], back[1], how);
    }
    for (int stop = 0; stop < 2 * CALLS; stop++) ask(there[1], back[0], how);
    close(there[1]);
    wait(NULL);
    return 0;
}
