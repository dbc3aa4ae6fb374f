# Writes a, b and c, each by a call of its own, and exits.
_start:
    li a0, 1
    la a1, text
    li a2, 1
    li a7, 64
    ecall
    li a0, 1
    la a1, text
    addi a1, a1, 1
    ecall
    li a0, 1
    la a1, text
    addi a1, a1, 2
    ecall
    li a0, 0
    li a7, 94
    ecall
text:
    .ascii "abc"
