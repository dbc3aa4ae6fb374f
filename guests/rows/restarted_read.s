# Reads from a pipe that nobody writes to, until its child sends SIGUSR1, whose handler returns; the read is made again.
_start:
    la t0, handler
    la a1, action
    sd t0, 0(a1)
    li t0, 0x10000000
    sd t0, 8(a1)
    li a0, 10
    li a2, 0
    li a3, 8
    li a7, 134
    ecall
    la a0, ends
    li a1, 0
    li a7, 59
    ecall
    li a0, 17
    li a1, 0
    li a7, 220
    ecall
    beqz a0, child
    la t0, ends
    lw a0, 0(t0)
    addi a1, sp, -16
    li a2, 16
    li a7, 63
    ecall
    li a0, 0
    li a7, 94
    ecall
child:
    li a0, 1
    li a1, 10
    li a7, 129
    ecall
    li a0, 0
    li a7, 94
    ecall
handler:
    ret
    .align 8
action:
    .dword 0
    .dword 0
    .dword 0
ends:
    .dword 0
