# Changes its code as it runs, 50 times: the next instruction of the same page, and one of another page that ran before.
# Each is by turns addi t0, t0, 1 and addi t0, t0, 2, so that a round adds 3. The status is 150.

_start: li s0, 50           # rounds
        la s1, here
        la s2, there
        li s3, 0x00128293   # addi t0, t0, 1
        li s4, 0x00228293   # addi t0, t0, 2
        li t0, 0
round:  sw s3, 0(s1)
here:   nop
        mv t1, s3
        mv s3, s4
        mv s4, t1
        j other

        .align 4096
other:  sw s3, 0(s2)
        j there

        .align 4096
there:  nop
        addi s0, s0, -1
        beqz s0, end
        la t1, round
        jalr zero, 0(t1)
end:    mv a0, t0
        li a1, 0
        li a2, 0
        li a3, 0
        li a4, 0
        li a5, 0
        li a7, 94           # exit_group
        ecall
