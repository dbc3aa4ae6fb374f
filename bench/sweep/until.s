# Writes one byte to the console 1,000 times, and exits with 1 at the first that fails.
_start:
    li s0, 1000
again:
    li a0, 1
    la a1, text
    li a2, 1
    li a7, 64
    ecall
    blt a0, zero, fail
    addi s0, s0, -1
    bnez s0, again
    li a0, 0
    li a7, 94
    ecall
fail:
    li a0, 1
    li a7, 94
    ecall
text: .ascii "x"
