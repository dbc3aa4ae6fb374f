# A pipe within one process. Bytes come out in the order in which they went in, however the writes and
# the reads divide them. Once no writing end is open, a read gives what is left, and then 0: the end.

_start: la a0, ends
        li a1, 0
        li a7, 59           # pipe2
        ecall
        la t0, ends
        lw s0, 0(t0)        # the reading end
        lw s1, 4(t0)        # the writing end

        mv a0, s1
        la a1, text
        li a2, 7
        li a7, 64           # write
        ecall
        mv a0, s1
        la a1, text
        addi a1, a1, 7
        li a2, 4
        li a7, 64           # write
        ecall

        mv a0, s0
        la a1, buffer
        li a2, 3
        li a7, 63           # read: 3 of the 11 bytes
        ecall
        mv a2, a0
        li a0, 1
        li a7, 64           # write, to standard output
        ecall

        mv a0, s1
        li a7, 57           # close: while this end is open a read of the empty pipe waits
        ecall
rest:   mv a0, s0
        la a1, buffer
        li a2, 16
        li a7, 63           # read
        ecall
        beqz a0, end
        mv a2, a0
        li a0, 1
        li a7, 64           # write
        ecall
        j rest
end:    li a0, 0
        li a7, 94           # exit_group
        ecall

text:   .ascii "to and fro\n"
        .align 4
ends:   .word 0, 0
buffer: .space 16
