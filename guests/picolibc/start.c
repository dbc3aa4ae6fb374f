// The start of a program, its standard streams, and its heap.
#include <elf.h>
#include <errno.h>
#include <stdio-bufio.h>
#include <stdlib.h>
#include <unistd.h>
#include "linux.h"

int main(int, char **, char **);
char **environ;

__asm__(".globl _start\n"
        "_start: .option push\n.option norelax\nla gp, __global_pointer$\n.option pop\n"
        "mv a0, sp\ncall begin\n");

// The streams of descriptors 0 to 2, the last two written line by line.
#define STREAM(stream, fd, access, kind) static char stream##_room[512]; \
    static struct __file_bufio stream##_file = \
        FDEV_SETUP_BUFIO(fd, stream##_room, sizeof stream##_room, read, write, lseek, close, access, kind); \
    FILE *const stream = &stream##_file.xfile.cfile.file;
STREAM(stdin, 0, __SRD, 0)
STREAM(stdout, 1, __SWR, __BLBF)
STREAM(stderr, 2, __SWR, __BLBF)

static void flush(void) { fflush(stdout); fflush(stderr); }

// Thread-local variables, picolibc's errno among them: tp points to them, and their first values stand in the file.
static char thread_area[1024] __attribute__((aligned(16)));
extern const Elf64_Ehdr __ehdr_start; // the linker's

static void lay_thread_area(void) {
    const Elf64_Phdr *part = (const void *)((const char *)&__ehdr_start + __ehdr_start.e_phoff);
    for (int i = 0; i < __ehdr_start.e_phnum; i++) {
        if (part[i].p_type != PT_TLS) continue;
        if (part[i].p_memsz > sizeof thread_area || part[i].p_align > 16) __builtin_trap();
        for (size_t k = 0; k < part[i].p_filesz; k++) thread_area[k] = ((const char *)part[i].p_vaddr)[k];
    }
    __asm__ volatile("mv tp, %0" : : "r"(thread_area) : "memory");
}

// At the start sp is the address of argc, after which come argv, 0, the environment, 0.
__attribute__((noreturn)) void begin(long *sp) {
    lay_thread_area();
    atexit(flush);
    environ = (char **)(sp + sp[0] + 2);
    exit(main(sp[0], (char **)(sp + 1), environ));
}

// The heap's end, by brk, which returns the end as it is then.
void *sbrk(ptrdiff_t more) {
    static long end;
    if (!end) end = LINUX(brk, 0);
    long old = end;
    if (more && LINUX(brk, end + more) != end + more) {
        errno = ENOMEM;
        return (void *)-1;
    }
    end = old + more;
    return (void *)old;
}
