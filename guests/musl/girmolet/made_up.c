/* Calls that nothing here can do, and whose answer a program needs. Those of which nothing true could be said aren't
   here, and are ENOSYS. */
#include <errno.h>
#include <string.h>
#include <sys/resource.h>
#include <sys/times.h>
#include <sys/utsname.h>
#include <time.h>
#include "girmolet.h"

/* A millisecond passes where somebody asks, and nobody waits. */
static long milliseconds;

long __girmolet_passed(const long *span)
{
    if (span) milliseconds += span[0] * 1000 + span[1] / 1000000;
    return 0;
}

static long now(long *to)
{
    milliseconds++;
    to[0] = CLOCK_AT_START + milliseconds / 1000;
    to[1] = milliseconds % 1000 * 1000000;
    return 0;
}

static long limit(long what, unsigned long *to)
{
    if (to) to[0] = to[1] = what == RLIMIT_NOFILE ? 256 : ~0UL;
    return 0;
}

static long random_(unsigned char *to, long count)
{
    static unsigned long state = 1;
    for (long i = 0; i < count; i++) {
        state = state * 6364136223846793005 + 1;
        to[i] = state >> 33;
    }
    return count;
}

static long machine(struct utsname *to)
{
    memset(to, 0, sizeof *to);
    strcpy(to->sysname, "Linux");
    strcpy(to->nodename, "girmolet");
    strcpy(to->release, "6.1.0");
    strcpy(to->version, "1");
    strcpy(to->machine, "riscv64");
    return 0;
}

/* Users, groups, terminals and threads. */
static long identity(long number, const long *a)
{
    switch (number) {
    case SYS_getuid: case SYS_geteuid: case SYS_getgid: case SYS_getegid: case SYS_setpgid: return 0;
    case SYS_getpgid: case SYS_getsid: return 1;
    case SYS_setsid: return CALL(getpid);
    case SYS_set_tid_address: return CALL(gettid);
    case SYS_tkill: return CALL(kill, a[0], a[1]);
    case SYS_tgkill: return CALL(kill, a[0], a[2]);
    case SYS_ioctl: return -ENOTTY;
    case SYS_uname: return machine((struct utsname *)a[0]);
    }
    return NOT_MINE;
}

long __girmolet_made_up(long number, const long *a)
{
    switch (number) {
    case SYS_linkat: case SYS_symlinkat: return -EPERM; /* as Linux answers for a file system without links */
    case SYS_mremap: return -ENOMEM;
    case SYS_umask: return 022;
    case SYS_fsync: case SYS_fdatasync: case SYS_sync: case SYS_flock:
    case SYS_fchmod: case SYS_fchmodat: case SYS_fchown: case SYS_fchownat: case SYS_utimensat:
    case SYS_mprotect: case SYS_madvise: case SYS_sigaltstack: case SYS_set_robust_list:
        return 0;
    case SYS_clock_gettime: return now((long *)a[1]);
    case SYS_nanosleep: return __girmolet_passed((const long *)a[0]);
    case SYS_clock_nanosleep: return __girmolet_passed((const long *)a[2]);
    case SYS_times:
        if (a[0]) memset((void *)a[0], 0, sizeof(struct tms));
        return milliseconds / 10;
    case SYS_getrusage: memset((void *)a[1], 0, USAGE); return 0;
    case SYS_getrlimit: return limit(a[0], (unsigned long *)a[1]);
    case SYS_prlimit64: return limit(a[1], (unsigned long *)a[3]);
    case SYS_getrandom: return random_((unsigned char *)a[0], a[1]);
    }
    return identity(number, a);
}
