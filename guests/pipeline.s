# Two processes and a pipe, as a shell makes them: the child writes lines to its standard output, which
# is the pipe; the parent reads them, makes capitals of their letters and writes them to its own.
# The parent waits for the child at the end, and ends with the child's status.

_start: la a0, ends
        li a1, 0
        li a7, 59           # pipe2
        ecall
        la t0, ends
        lw s0, 0(t0)        # the reading end
        lw s1, 4(t0)        # the writing end
        li a0, 17           # SIGCHLD tells the parent of the child's end
        li a1, 0            # the child keeps its stack, in a copy of the memory
        li a7, 220          # clone
        ecall
        beqz a0, child

        mv a0, s1
        li a7, 57           # close: else this process would be a writer that it waits for
        ecall
read:   mv a0, s0
        la a1, buffer
        li a2, 64
        li a7, 63           # read: waits for bytes
        ecall
        beqz a0, wait       # no writer is left
        mv a2, a0
        add t1, a1, a0      # behind the last byte
        mv t0, a1
        li t3, 97           # 'a'
        li t4, 122          # 'z'
each:   lbu t2, 0(t0)
        blt t2, t3, next
        blt t4, t2, next
        addi t2, t2, -32    # 'A' is 65
        sb t2, 0(t0)
next:   addi t0, t0, 1
        bltu t0, t1, each
        li a0, 1
        li a7, 64           # write
        ecall
        j read

wait:   li a0, -1           # any child
        la a1, word
        li a2, 0
        li a3, 0
        li a7, 260          # wait4
        ecall
        lbu a0, 1(a1)       # the exit code is the word's second byte
        li a7, 94           # exit_group
        ecall

child:  mv a0, s1
        li a1, 1
        li a2, 0
        li a7, 24           # dup3: standard output is the pipe from here on
        ecall
        mv a0, s0
        li a7, 57           # close
        ecall
        mv a0, s1
        li a7, 57           # close
        ecall
        li a0, 1
        la a1, first
        li a2, 6
        li a7, 64           # write
        ecall
        li a0, 1
        la a1, second
        li a2, 5
        li a7, 64           # write
        ecall
        li a0, 3
        li a7, 94           # exit_group: the end closes the last writing end
        ecall

first:  .ascii "bread\n"
second: .ascii "salt\n"
        .align 4
ends:   .word 0, 0
word:   .word 0
buffer: .space 64
