// The modelled Linux's system calls, for the files beside this one: numbers are riscv64 Linux's (docs/CALLS.md).
#ifndef LINUX_H
#define LINUX_H

enum {
    SYS_getcwd = 17, SYS_dup = 23, SYS_dup3 = 24, SYS_mkdirat = 34, SYS_unlinkat = 35, SYS_symlinkat = 36,
    SYS_linkat = 37, SYS_truncate = 45, SYS_ftruncate = 46, SYS_chdir = 49, SYS_fchmod = 52, SYS_fchmodat = 53,
    SYS_openat = 56, SYS_close = 57, SYS_pipe2 = 59, SYS_lseek = 62, SYS_read = 63, SYS_write = 64,
    SYS_pread64 = 67, SYS_pwrite64 = 68, SYS_readlinkat = 78, SYS_newfstatat = 79, SYS_fstat = 80, SYS_fsync = 82,
    SYS_fdatasync = 83, SYS_exit_group = 94, SYS_clock_gettime = 113, SYS_kill = 129, SYS_rt_sigaction = 134,
    SYS_rt_sigprocmask = 135, SYS_times = 153, SYS_getpid = 172, SYS_getppid = 173, SYS_brk = 214, SYS_clone = 220,
    SYS_execve = 221, SYS_wait4 = 260, SYS_renameat2 = 276, SYS_getrandom = 278
};

#define LINUX_AT_FDCWD (-100)

// Makes a call; an error becomes errno, by picolibc's number, and -1.
long linux_call(long number, long a, long b, long c, long d, long e);

// LINUX(openat, LINUX_AT_FDCWD, path, flags): a call by its name, with up to five arguments of any types.
#define LINUX(...) LINUX_OF(__VA_ARGS__, 0, 0, 0, 0, 0)
#define LINUX_OF(name, a, b, c, d, e, ...) linux_call(SYS_##name, (long)(a), (long)(b), (long)(c), (long)(d), (long)(e))

// Picolibc's number of the signal that Linux calls `number`.
int signal_of_linux(int number);

#endif
