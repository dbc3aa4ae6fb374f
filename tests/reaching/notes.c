// What -fsanitize-coverage=func,trace-pc-guard calls: keeps in the file NOTES, for each function that was entered, its place
// in the program. It is built without a C library, since it goes into programs that have one of their own.
typedef unsigned long word;
extern char __ehdr_start __attribute__((visibility("hidden")));

static unsigned guards;
static word *notes;

static long call(long number, long a, long b, long c, long d, long e, long f) {
    register long r10 __asm__("r10") = d;
    register long r8 __asm__("r8") = e;
    register long r9 __asm__("r9") = f;
    long result;
    __asm__ volatile("syscall"
                     : "=a"(result)
                     : "a"(number), "D"(a), "S"(b), "d"(c), "r"(r10), "r"(r8), "r"(r9)
                     : "rcx", "r11", "memory");
    return result;
}

void __sanitizer_cov_trace_pc_guard_init(unsigned *start, unsigned *stop) {
    if (start == stop || *start) return;
    for (; start < stop; start++) *start = ++guards;
    // open(NOTES, O_RDWR | O_CREAT, 0666), ftruncate, mmap(.., PROT_READ | PROT_WRITE, MAP_SHARED, ..), close
    long file = call(2, (long)NOTES, 0102, 0666, 0, 0, 0), size = (long)guards * 8 + 8;
    if (file < 0) return;
    call(77, file, size, 0, 0, 0, 0);
    long at = call(9, 0, size, 3, 1, file, 0);
    call(3, file, 0, 0, 0, 0, 0);
    if (at > 0) notes = (word *)at;
}

void __sanitizer_cov_trace_pc_guard(unsigned *guard) {
    if (notes) notes[*guard] = (word)__builtin_return_address(0) - (word)&__ehdr_start;
}
