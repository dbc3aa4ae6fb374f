# A loop: writes the digits 9 to 0, each on a line, with one call for each.

_start: li s0, 57           # '9'
        li s1, 48           # '0'
        la s2, line
again:  sb s0, 0(s2)
        li a0, 1
        mv a1, s2
        li a2, 2
        li a7, 64           # write
        ecall
        addi s0, s0, -1
        bge s0, s1, again
        li a0, 0
        li a7, 94           # exit_group
        ecall

line:   .ascii "?\n"
