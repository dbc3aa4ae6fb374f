# Turns a text around in memory, byte by byte, and writes it: "drawer" becomes "reward".

_start: la s0, text         # the first byte
        addi s1, s0, 5      # the last one
swap:   bgeu s0, s1, write
        lbu t0, 0(s0)
        lbu t1, 0(s1)
        sb t1, 0(s0)
        sb t0, 0(s1)
        addi s0, s0, 1
        addi s1, s1, -1
        j swap
write:  li a0, 1
        la a1, text
        li a2, 7
        li a7, 64           # write
        ecall
        li a0, 0
        li a7, 94           # exit_group
        ecall

text:   .ascii "drawer\n"
