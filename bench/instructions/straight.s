# Straight code over the end of a page, 24 instructions a round, 420,000 rounds.

_start: li s0, 420000       # rounds
        j round

        .align 4096
        .space 4048
round:  addi a0, a0, 1
        xor a1, a1, a0
        slli a2, a1, 3
        add a3, a3, a2
        srli a4, a3, 5
        sub a5, a4, a0
        and a6, a5, a1
        or t0, a6, a3
        addi t1, t0, 7
        xor t2, t1, a2
        add t3, t2, t1
        sltu t4, t3, t2
        addi a0, a0, 3
        xor a1, a1, a0
        slli a2, a1, 2
        add a3, a3, a2
        srli a4, a3, 9
        sub a5, a4, a0
        and a6, a5, a1
        or t0, a6, a3
        addi t1, t0, 5
        xor t2, t1, a2
        addi s0, s0, -1
        bnez s0, round
        add a0, a0, t2
        li a7, 94           # exit_group
        ecall
