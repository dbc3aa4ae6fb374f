# Writes one byte to the console 1,000 times, whatever comes of it, and exits.
_start:
    li s0, 1000
again:
    li a0, 1
    la a1, text
    li a2, 1
    li a7, 64
    ecall
    addi s0, s0, -1
    bnez s0, again
    li a0, 0
    li a7, 94
    ecall
text: .ascii "x"
