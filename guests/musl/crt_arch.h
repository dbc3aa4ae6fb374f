/* In the place of musl's arch/riscv64/crt_arch.h: the start of a program, where sp is the address of argc, argv, 0, the
   environment, 0, and the auxiliary vector (psABI; docs/LINUX.md). It sets gp, aligns the stack, and calls the C
   below.

   Linux tells a program by the auxiliary vector where its program headers are, from which musl takes the first values
   of thread-local variables. The modelled Linux doesn't, so they are added to a copy. */
#include <elf.h>

__asm__(
    "   .text\n"
    "   .type   " START ", @function\n"
    "   .globl  " START "\n"
    START ":\n"
    "   mv  a0, sp\n"
    "   andi    sp, sp, -16\n"
    "   .option push\n"
    "   .option norelax\n"
    "   lla gp, __global_pointer$\n"
    "   .option pop\n"
    "   call    __girmolet_start\n"
);

extern const Elf64_Ehdr __ehdr_start __attribute__((__visibility__("hidden"))); /* the linker's */
void __girmolet_started(long *) __asm__("_start_c"); /* musl's, whose type isn't the same in each of its start files */

__attribute__((__used__)) static void __girmolet_begin(long *words) __asm__("__girmolet_start");
static void __girmolet_begin(long *words)
{
    long count = 1 + words[0] + 1, pairs;
    while (words[count++]);
    for (pairs = 0; words[count + 2 * pairs] != AT_NULL; pairs++);
    long headers[] = {
        AT_PHDR, (long)&__ehdr_start + (long)__ehdr_start.e_phoff, AT_PHENT, __ehdr_start.e_phentsize,
        AT_PHNUM, __ehdr_start.e_phnum, AT_NULL, 0
    };
    long copy[count + 2 * pairs + 8], *end = copy;
    for (long i = 0; i < count + 2 * pairs; i++) *end++ = words[i];
    for (int i = 0; i < 8; i++) *end++ = headers[i];
    __girmolet_started(copy);
}
