# Makes a file, unlinks it while it is open, looks at it and for it, and asks for memory in two ways.
_start:
    li a0, -100
    la a1, path
    li a2, 0x41
    li a3, 420
    li a7, 56
    ecall
    li a0, -100
    la a1, path
    li a2, 0
    li a7, 35
    ecall
    li a0, 3
    la a1, status
    li a7, 80
    ecall
    li a0, -100
    la a1, path
    li a2, 0
    li a7, 56
    ecall
    li a0, 0
    li a7, 214
    ecall
    li a0, 0
    li a1, 4096
    li a2, 3
    li a3, 0x22
    li a4, -1
    li a5, 0
    li a7, 222
    ecall
    li a0, 0
    li a7, 94
    ecall
path:
    .asciz "/a"
    .align 8
status:
    .space 128
