# In the place of musl's src/thread/riscv64/clone.s: __clone(function, stack, flags, argument, ..) makes a child that
# calls function(argument) on the stack, and ends with what it returns. The modelled Linux has clone(SIGCHLD, stack)
# alone: so the child of posix_spawn, system and popen has a copy of the memory, and a thread is EAGAIN.
#
# The kernel keeps every register but a0, in the child all but a0 and sp: function and argument go over in a5 and a6.
    .text
    .globl __clone
    .hidden __clone
    .type __clone, @function
__clone:
    li a5, 0x10000      # CLONE_THREAD
    and a5, a5, a2
    bnez a5, 2f
    mv a5, a0
    mv a6, a3
    andi a1, a1, -16
    li a0, 17           # SIGCHLD
    li a2, 0
    li a3, 0
    li a4, 0
    li a7, 220          # clone
    ecall
    bnez a0, 1f
    mv a0, a6
    jalr a5
    li a7, 93           # exit
    ecall
1:  ret
2:  li a0, -11          # EAGAIN
    ret
