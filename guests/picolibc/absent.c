// What the modelled Linux hasn't and nothing here makes up (made_up.c has the rest). Where a program has to expect an
// error the call is made all the same: the trace shows syscall_0x71(..) = -1 ENOSYS, the program sees ENOSYS, and a kernel
// that has the call will be used. Where it can't, linking ends, and the linker says why.
#include <sys/time.h>
#include <sys/times.h>
#include <unistd.h>
#include "linux.h"

int getentropy(void *to, size_t size) { return LINUX(getrandom, to, size, 0) == (long)size ? 0 : -1; }
clock_t times(struct tms *to) { return LINUX(times, to); }
int gettimeofday(struct timeval *to, void *zone) { // so time() is -1
    long now[2];
    (void)zone;
    if (LINUX(clock_gettime, 0, now) < 0) return -1;
    to->tv_sec = now[0];
    to->tv_usec = now[1] / 1000;
    return 0;
}

// The linker prints a section .gnu.warning.NAME where NAME is referred to.
#define NOT_HERE(name, why) \
    static const char why_##name[] __attribute__((used, section(".gnu.warning." #name))) = \
        #name ": the modelled Linux " why

#define NO_TIME "has no clock and no timers"
NOT_HERE(sleep, NO_TIME); NOT_HERE(usleep, NO_TIME); NOT_HERE(nanosleep, NO_TIME); NOT_HERE(alarm, NO_TIME);
NOT_HERE(clock_gettime, NO_TIME); NOT_HERE(setitimer, NO_TIME); NOT_HERE(utime, NO_TIME);

#define NO_LISTING "can't list a directory"
NOT_HERE(opendir, NO_LISTING); NOT_HERE(readdir, NO_LISTING); NOT_HERE(closedir, NO_LISTING);
NOT_HERE(glob, NO_LISTING);

#define NO_WAIT "has no call that waits for a signal; read an empty pipe, or build with musl"
NOT_HERE(pause, NO_WAIT); NOT_HERE(sigsuspend, NO_WAIT); NOT_HERE(sigwait, NO_WAIT); NOT_HERE(sigpending, NO_WAIT);

#define NO_USERS "has no users, groups and terminals"
NOT_HERE(getuid, NO_USERS); NOT_HERE(geteuid, NO_USERS); NOT_HERE(getgid, NO_USERS); NOT_HERE(getegid, NO_USERS);
NOT_HERE(setpgid, NO_USERS); NOT_HERE(setsid, NO_USERS); NOT_HERE(tcgetattr, NO_USERS); NOT_HERE(tcsetpgrp, NO_USERS);
NOT_HERE(umask, NO_USERS); NOT_HERE(chown, NO_USERS);

#define NO_SOCKETS "has no sockets, poll and select"
NOT_HERE(socket, NO_SOCKETS); NOT_HERE(select, NO_SOCKETS); NOT_HERE(poll, NO_SOCKETS);

NOT_HERE(fcntl, "has no fcntl; dup2, and O_CLOEXEC in open and dup3, are there");
NOT_HERE(popen, "has what popen needs, but picolibc has no popen; use pipe, fork, dup2 and execl, or build with musl");
NOT_HERE(pthread_create, "has processes of one thread each");
