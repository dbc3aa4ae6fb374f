/* Signals. The kernel calls on_signal for each that is caught, for sigsuspend's and SA_RESETHAND's sake. */
#include <errno.h>
#include <signal.h>
#include <string.h>
#include "girmolet.h"
#include "ksigaction.h" /* musl's form of an action */

#define SIGNALS 32
#define SENT 0x7fffffffUL /* signals 1 to 31 */

/* the kernel's form, and a fourth word: qemu-riscv64 7.2 has the mask there */
struct action { void (*handler)(); unsigned long flags, mask, qemu_mask; };

static struct k_sigaction actions[SIGNALS];
static volatile int waiting; /* the descriptor whose bytes wake sigsuspend, or 0 */

static void on_signal(int number, void *info, void *context)
{
    struct k_sigaction *it = &actions[number];
    if (it->flags & SA_RESETHAND) CALL(rt_sigaction, number, &(struct action){0}, 0, 8);
    ((void (*)(int, void *, void *))it->handler)(number, info, context);
    if (waiting) CALL(write, waiting, "", 1);
}

static long action(long number, const struct k_sigaction *new, struct k_sigaction *old)
{
    struct action kernel = {0}, was = {0};
    if (number < 1 || number >= SIGNALS) return -EINVAL;
    struct k_sigaction before = actions[number];
    if (new) {
        int caught = new->handler != SIG_DFL && new->handler != SIG_IGN;
        kernel.handler = caught ? (void (*)())on_signal : new->handler;
        kernel.flags = new->flags & (SA_SIGINFO | SA_RESTART | SA_NODEFER); /* it refuses others */
        kernel.mask = kernel.qemu_mask = new->mask[0] & SENT;
        actions[number] = *new; /* before the kernel's, since the signal may come at once */
    }
    long result = CALL(rt_sigaction, number, new ? &kernel : 0, &was, 8);
    if (result < 0) {
        actions[number] = before;
    } else if (old) {
        *old = before;
        if (was.handler != (void (*)())on_signal)
            *old = (struct k_sigaction){.handler = was.handler, .flags = was.flags, .mask = {was.mask}};
    }
    return result;
}

static long mask_(long how, const unsigned long *set, long old)
{
    unsigned long sent = set ? *set & SENT : 0;
    return CALL(rt_sigprocmask, how, set ? &sent : 0, old, 8);
}

/* Waits for a signal by reading an empty pipe, into which on_signal writes: so no signal is missed, and where none can
   come every process waits. */
long __girmolet_suspend(const unsigned long *mask)
{
    int ends[2];
    char byte;
    unsigned long before;
    long result = CALL(pipe2, ends, 0);
    if (result < 0) return result;
    waiting = ends[1];
    if (mask) mask_(SIG_SETMASK, mask, (long)&before);
    CALL(read, ends[0], &byte, 1);
    waiting = 0;
    if (mask) mask_(SIG_SETMASK, &before, 0);
    CALL(close, ends[0]);
    CALL(close, ends[1]);
    return -EINTR;
}

long __girmolet_signals(long number, const long *a)
{
    switch (number) {
    case SYS_rt_sigaction: return action(a[0], (const struct k_sigaction *)a[1], (struct k_sigaction *)a[2]);
    case SYS_rt_sigprocmask: return mask_(a[0], (const unsigned long *)a[1], a[2]);
    }
    return NOT_MINE;
}
