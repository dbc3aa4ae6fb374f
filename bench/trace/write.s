# Writes three bytes to the console 100,000 times, and exits.
_start:
    li s0, 100000
again:
    li a0, 1
    la a1, text
    li a2, 3
    li a7, 64
    ecall
    addi s0, s0, -1
    bnez s0, again
    li a0, 0
    li a7, 94
    ecall
text: .ascii "hi\n"
