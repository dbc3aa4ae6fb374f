# Writes bytes that are shown as escapes, and three letters.
_start:
    li a0, 2
    la a1, bytes
    li a2, 8
    li a7, 64
    ecall
    li a0, 1
    la a1, letters
    li a2, 3
    ecall
    li a0, 0
    li a7, 94
    ecall
bytes:
    .byte 0x00
    .byte 0x31
    .byte 0x01
    .byte 0x61
    .byte 0x22
    .byte 0x5c
    .byte 0x7f
    .byte 0x80
letters:
    .ascii "abc"
