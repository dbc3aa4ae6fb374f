/* In the place of musl's arch/riscv64/syscall_arch.h: libc's system calls are calls of one function. */
__attribute__((__visibility__("hidden"))) long __girmolet(long number, const long *arguments);

/* musl's call of N arguments: those that it hasn't are 0 */
#define __GIRMOLET(...) __girmolet(number, (const long[6]){ __VA_ARGS__ })
static inline long __syscall0(long number) { return __GIRMOLET(0); }
static inline long __syscall1(long number, long a0) { return __GIRMOLET(a0); }
static inline long __syscall2(long number, long a0, long a1) { return __GIRMOLET(a0, a1); }
static inline long __syscall3(long number, long a0, long a1, long a2) { return __GIRMOLET(a0, a1, a2); }
static inline long __syscall4(long number, long a0, long a1, long a2, long a3) { return __GIRMOLET(a0, a1, a2, a3); }
static inline long __syscall5(long number, long a0, long a1, long a2, long a3, long a4)
{
    return __GIRMOLET(a0, a1, a2, a3, a4);
}
static inline long __syscall6(long number, long a0, long a1, long a2, long a3, long a4, long a5)
{
    return __GIRMOLET(a0, a1, a2, a3, a4, a5);
}

/* an argument of 64 bits is one register, of whatever parity */
#define __SYSCALL_LL_E(x) (x)
#define __SYSCALL_LL_O(x) (x)
/* riscv64 has the newer structures of System V IPC alone, without a flag that asks for them */
#define IPC_64 0
