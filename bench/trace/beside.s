# Makes 100,000 calls of getpid beside 63 processes that read from an empty pipe, and exits.
_start:
    la a0, ends
    li a1, 0
    li a7, 59
    ecall
    li s1, 63
other:
    li a0, 17
    li a1, 0
    li a7, 220
    ecall
    beqz a0, wait
    addi s1, s1, -1
    bnez s1, other
    li s0, 100000
again:
    li a7, 172
    ecall
    addi s0, s0, -1
    bnez s0, again
    li a0, 0
    li a7, 94
    ecall
wait:
    la t0, ends
    lw a0, 4(t0)
    li a7, 57
    ecall
    la a1, ends
    lw a0, 0(a1)
    li a2, 1
    li a7, 63
    ecall
    li a0, 0
    li a7, 93
    ecall
    .align 8
ends: .dword 0
