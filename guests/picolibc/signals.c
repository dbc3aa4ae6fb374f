// Signals. Picolibc numbers them, and the ways of sigprocmask, as BSD does, and its sets have signal n at bit n.
#include <errno.h>
#include <signal.h>
#include <sys/types.h>
#include <unistd.h>
#include "linux.h"

#define SIGNALS 32
#define LINUX_SA_RESTART 0x10000000

// Linux's number of each of picolibc's signals.
static const unsigned char numbers[SIGNALS] = {
    0, 1, 2, 3, 4, 5, 6, 16, 8, 9, 7, 11, 31, 13, 14, 15, 23, 19, 20, 18, 17, 21, 22, 29, 24, 25, 26, 27, 28, 30, 10, 12
};

static int linux_of_signal(int number) { return number >= 0 && number < SIGNALS ? numbers[number] : number; }

int signal_of_linux(int number) {
    for (int i = 1; i < SIGNALS; i++) if (numbers[i] == number) return i;
    return number;
}

static long linux_of_set(sigset_t set) {
    long bits = 0;
    for (int i = 1; i < SIGNALS; i++) if (set >> i & 1) bits |= 1L << (numbers[i] - 1);
    return bits;
}

static sigset_t set_of_linux(long bits) {
    sigset_t set = 0;
    for (int i = 1; i < SIGNALS; i++) if (bits >> (numbers[i] - 1) & 1) set |= 1UL << i;
    return set;
}

// The kernel's form of an action, and a fourth word: qemu-riscv64 7.2 has the mask there.
struct linux_action { _sig_func_ptr handler; unsigned long flags, mask, qemu_mask; };
// The program's actions by Linux's number.
static struct sigaction actions[SIGNALS];

static void on_signal(int number) { actions[number].sa_handler(signal_of_linux(number)); }

int sigaction(int number, const struct sigaction *act, struct sigaction *old) {
    int n = linux_of_signal(number);
    if (n < 1 || n >= SIGNALS) { errno = EINVAL; return -1; }
    struct sigaction before = actions[n];
    struct linux_action new = {0}, was = {0};
    if (act) {
        int caught = act->sa_handler != SIG_DFL && act->sa_handler != SIG_IGN;
        new.handler = caught ? on_signal : act->sa_handler;
        new.flags = act->sa_flags & ~SA_NOCLDSTOP; // which the kernel refuses
        new.mask = new.qemu_mask = linux_of_set(act->sa_mask);
        actions[n] = *act; // before the kernel's, since the signal may come at once
    }
    if (LINUX(rt_sigaction, n, act ? &new : 0, &was, sizeof was.mask) < 0) { actions[n] = before; return -1; }
    if (old) {
        *old = before;
        if (was.handler != on_signal) old->sa_handler = was.handler;
    }
    return 0;
}

_sig_func_ptr signal(int number, _sig_func_ptr handler) {
    struct sigaction act = {.sa_handler = handler, .sa_flags = LINUX_SA_RESTART}, old;
    return sigaction(number, &act, &old) < 0 ? SIG_ERR : old.sa_handler;
}

int sigprocmask(int how, const sigset_t *set, sigset_t *old) {
    static const unsigned char ways[] = {[SIG_BLOCK] = 0, [SIG_UNBLOCK] = 1, [SIG_SETMASK] = 2};
    if (set && (how < 0 || how >= (int)sizeof ways)) { errno = EINVAL; return -1; }
    long bits = set ? linux_of_set(*set) : 0, was = 0;
    if (LINUX(rt_sigprocmask, set ? ways[how] : 0, set ? &bits : 0, old ? &was : 0, sizeof bits) < 0) return -1;
    if (old) *old = set_of_linux(was);
    return 0;
}

int kill(pid_t pid, int number) { return LINUX(kill, pid, linux_of_signal(number)); }
int raise(int number) { return kill(getpid(), number); }
