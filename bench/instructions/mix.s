# Loads, stores, arithmetic and branches: eight instructions a round, 1,250,000 rounds.
# 10,000,007 instructions run, the last ecall included. The status is the low byte of the sum, 112.

_start: li s0, 1250000      # rounds
        la s1, cell
round:  ld t0, 0(s1)
        addi t0, t0, 3
        sd t0, 0(s1)
        andi t1, t0, 255
        add t2, s1, t1
        lbu a0, 8(t2)
        addi s0, s0, -1
        bnez s0, round
        ld a0, 0(s1)
        li a7, 94           # exit_group
        ecall

        .align 4096
cell:   .space 512
