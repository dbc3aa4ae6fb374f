# A walk over the 64 pages of the stack, a load and a store in each: 6 instructions a page, 26,000 rounds.

_start: li s0, 26000        # rounds
        lui s1, 1           # a page
        li s2, -64
        slli s2, s2, 12
        mv s3, sp
        srli s3, s3, 12
        addi s3, s3, 1
        slli s3, s3, 12     # the end of the stack
        add s2, s2, s3      # its first page
round:  mv t0, s2
page:   ld t1, 8(t0)
        addi t1, t1, 1
        sd t1, 8(t0)
        add a0, a0, t1
        add t0, t0, s1
        bne t0, s3, page
        addi s0, s0, -1
        bnez s0, round
        li a7, 94           # exit_group
        ecall
