/* Every system call of libc comes to __girmolet. A call that the modelled Linux has goes to it, less what it refuses.
   Another is asked for once a program: the trace shows syscall_0x42(..) = -1 ENOSYS, which is what the program would
   call on Linux, and a kernel that has the call is used from then on. Where it answers ENOSYS the call is made of
   others, or made up. */
#define _GNU_SOURCE
#include <errno.h>
#include <string.h>
#include <sys/mman.h>
#include "girmolet.h"

/* A handler may run in it, which can read and write any static variable: so the compiler isn't to look inside. */
__attribute__((noipa))
long __girmolet_ecall(long number, long a, long b, long c, long d, long e, long f)
{
    register long a7 __asm__("a7") = number, a0 __asm__("a0") = a, a1 __asm__("a1") = b, a2 __asm__("a2") = c;
    register long a3 __asm__("a3") = d, a4 __asm__("a4") = e, a5 __asm__("a5") = f;
    __asm__ volatile("ecall" : "+r"(a0) : "r"(a1), "r"(a2), "r"(a3), "r"(a4), "r"(a5), "r"(a7) : "memory");
    return a0;
}

#define NUMBERS 512

/* Numbers that were asked for and aren't there. */
static unsigned char absent[NUMBERS];

/* Not asked for: what musl calls at each start or for each line, users, limits and time, and what says nothing here
   that a program could test. */
static const unsigned char unasked[NUMBERS] = {
    [SYS_ioctl] = 1, [SYS_fcntl] = 1, [SYS_set_robust_list] = 1, [SYS_set_tid_address] = 1, [SYS_sigaltstack] = 1,
    [SYS_tkill] = 1, [SYS_tgkill] = 1, [SYS_umask] = 1, [SYS_getuid] = 1, [SYS_geteuid] = 1, [SYS_getgid] = 1,
    [SYS_getegid] = 1, [SYS_getpgid] = 1, [SYS_getsid] = 1, [SYS_uname] = 1, [SYS_getrusage] = 1, [SYS_times] = 1,
    [SYS_getrlimit] = 1, [SYS_prlimit64] = 1, [SYS_getrandom] = 1, [SYS_clock_gettime] = 1, [SYS_mprotect] = 1,
    [SYS_madvise] = 1
};

static int is_here(long number)
{
    switch (number) {
    case SYS_getcwd: case SYS_mkdirat: case SYS_unlinkat: case SYS_ftruncate: case SYS_lseek: case SYS_read:
    case SYS_write: case SYS_exit: case SYS_exit_group: case SYS_sched_yield: case SYS_kill: case SYS_rt_sigreturn:
    case SYS_getpid: case SYS_getppid: case SYS_gettid: case SYS_brk: case SYS_munmap: case SYS_clone:
        return 1;
    }
    return 0;
}

/* Private pages of zeros, anywhere: MAP_STACK, MAP_NORESERVE and a wanted address say nothing here. Pages without rights
   have those to read and write, since there is no mprotect that could give them later. */
static long map(const long *a)
{
    long kind = a[3] & (MAP_TYPE | MAP_ANONYMOUS | MAP_FIXED);
    long flags = kind == (MAP_PRIVATE | MAP_ANONYMOUS) ? kind : a[3];
    return CALL(mmap, 0, a[1], a[2] == PROT_NONE ? PROT_READ | PROT_WRITE : a[2], flags, a[4], a[5]);
}

/* Of a child's usage nothing is known. */
static long wait_(const long *a)
{
    long result = CALL(wait4, a[0], a[1], a[2]);
    if (result >= 0 && a[3]) memset((void *)a[3], 0, USAGE);
    return result;
}

long __girmolet(long number, const long *a)
{
    if (is_here(number)) return CALL_NUMBER(number, a[0], a[1], a[2], a[3], a[4], a[5]);
    if (number == SYS_mmap) return map(a);
    if (number == SYS_wait4) return wait_(a);
    long result = __girmolet_descriptors(number, a);
    if (result == NOT_MINE) result = __girmolet_signals(number, a);
    if (result != NOT_MINE) return result;
    if (number >= 0 && number < NUMBERS && !absent[number] && !unasked[number]) {
        result = CALL_NUMBER(number, a[0], a[1], a[2], a[3], a[4], a[5]);
        if (result != -ENOSYS) return result;
        absent[number] = 1;
    }
    result = __girmolet_of_others(number, a);
    if (result == NOT_MINE) result = __girmolet_made_up(number, a);
    return result == NOT_MINE ? -ENOSYS : result;
}
