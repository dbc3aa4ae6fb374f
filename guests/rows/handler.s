# Sets a handler for SIGUSR1 that stores 3 in a cell, asks for its pid, and ends with the cell and the call's number added.
_start:
    la t0, handler
    la a1, action
    sd t0, 0(a1)
    li a0, 10
    li a2, 0
    li a3, 8
    li a7, 134
    ecall
    li a7, 172
    ecall
    la t0, cell
    ld t1, 0(t0)
    add a0, t1, a7
    li a7, 94
    ecall
handler:
    la t0, cell
    li t1, 3
    sd t1, 0(t0)
    ret
    .align 8
action:
    .dword 0
    .dword 0
    .dword 0
cell:
    .dword 0
