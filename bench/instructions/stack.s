# Data and stack: each round loads and stores in a page of data and in the page of the stack, in turns, as the code
# of a compiler does that keeps variables on the stack. 12 instructions a round, 800,000 rounds.

_start: li s0, 800000       # rounds
        la s1, cell
        addi sp, sp, -32
        sd s0, 8(sp)
        sd zero, 16(sp)
round:  ld t0, 0(s1)
        ld t1, 16(sp)
        add t0, t0, t1
        addi t0, t0, 3
        sd t0, 0(s1)
        addi t1, t1, 1
        sd t1, 16(sp)
        lbu t2, 8(s1)
        ld t3, 8(sp)
        addi t3, t3, -1
        sd t3, 8(sp)
        bnez t3, round
        ld a0, 0(s1)
        li a7, 94           # exit_group
        ecall

        .align 4096
cell:   .space 512
