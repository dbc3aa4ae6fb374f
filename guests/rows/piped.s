# A child writes to a pipe that its parent reads; the parent waits for it.
_start:
    la a0, ends
    li a1, 0
    li a7, 59
    ecall
    li a0, 17
    li a1, 0
    li a7, 220
    ecall
    beqz a0, child
    la t0, ends
    lw a0, 0(t0)
    la a1, buffer
    li a2, 16
    li a7, 63
    ecall
    li a0, -1
    la a1, word
    li a2, 0
    li a3, 0
    li a7, 260
    ecall
    li a0, 0
    li a7, 94
    ecall
child:
    la t0, ends
    lw a0, 4(t0)
    la a1, text
    li a2, 2
    li a7, 64
    ecall
    li a0, 3
    li a7, 94
    ecall
text:
    .ascii "hi"
    .align 8
ends:
    .dword 0
word:
    .dword 0
buffer:
    .space 16
