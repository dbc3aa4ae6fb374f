# A child writes to a pipe that nobody reads; its parent waits for it.
_start:
    la a0, ends
    li a1, 0
    li a7, 59
    ecall
    la t0, ends
    lw a0, 0(t0)
    li a7, 57
    ecall
    li a0, 17
    li a1, 0
    li a7, 220
    ecall
    beqz a0, child
    li a1, 0
    li a2, 0
    li a3, 0
    li a7, 260
    ecall
    j end
child:
    la t0, ends
    lw a0, 4(t0)
    la a1, text
    li a2, 1
    li a7, 64
    ecall
end:
    li a0, 0
    li a7, 94
    ecall
text:
    .ascii "a"
    .align 8
ends:
    .dword 0
