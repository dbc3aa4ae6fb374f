/* From musl to the modelled Linux: what the files of this directory share. docs/CALLS.md says what the modelled Linux
   has, docs/GUESTS.md what is made of it and what is made up. */
#ifndef GIRMOLET_H
#define GIRMOLET_H
#include <features.h>
#include <sys/syscall.h>

/* a call of the kernel: its result, or its error as a negative number */
hidden long __girmolet_ecall(long number, long a, long b, long c, long d, long e, long f);
#define CALL_NUMBER(...) CALL_OF(__VA_ARGS__, 0, 0, 0, 0, 0, 0)
#define CALL_OF(n, a, b, c, d, e, f, ...) \
    __girmolet_ecall(n, (long)(a), (long)(b), (long)(c), (long)(d), (long)(e), (long)(f))
/* CALL(openat, AT_FDCWD, path, flags), by the call's name */
#define CALL(name, ...) CALL_NUMBER(SYS_##name, ##__VA_ARGS__)

/* what a function for some calls answers for another; no result of Linux's */
#define NOT_MINE (-5000)
/* Each of these is a call with its six arguments. The first two are for calls that the modelled Linux has, the others
   for calls that it hasn't. */
hidden long __girmolet_descriptors(long number, const long *a);
hidden long __girmolet_signals(long number, const long *a);
hidden long __girmolet_of_others(long number, const long *a);
hidden long __girmolet_made_up(long number, const long *a);

hidden long __girmolet_chdir(const char *path);
hidden long __girmolet_fcntl(long fd, long what, long argument);
hidden long __girmolet_suspend(const unsigned long *mask);
/* a span of time passes */
hidden long __girmolet_passed(const long *span);
/* a path's number, for st_ino: odd */
hidden unsigned long __girmolet_number_of(const char *path);

#define CLOCK_AT_START 1700000000
/* the bytes of the kernel's rusage */
#define USAGE 144

#endif
