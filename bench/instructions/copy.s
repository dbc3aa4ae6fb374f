# Words from one page to another: 512 double words a round, 6 instructions each, 3,250 rounds.

_start: li s0, 3250         # rounds
        la s1, from
        la s2, to
        la s3, end
round:  mv t0, s1
        mv t1, s2
word:   ld t2, 0(t0)
        sd t2, 0(t1)
        addi t0, t0, 8
        addi t1, t1, 8
        xor a0, a0, t2
        bne t1, s3, word
        addi s0, s0, -1
        sd s0, 0(s1)
        bnez s0, round
        li a7, 94           # exit_group
        ecall

        .align 4096
from:   .space 4096
to:     .space 4096
end:    .byte 0
