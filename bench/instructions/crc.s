# CRC-32 (IEEE 802.3) of 4,096 bytes, bit by bit, going on over the same bytes for 40 rounds.
# The bytes are 0 to 255, sixteen times. Writes the value as four bytes, the lowest first.
# 10,006,709 instructions run, calls included.

_start: li s0, 40           # rounds
        lui s1, 0xedb88     # the polynomial, its lowest power first
        addi s1, s1, 0x320
        slli s1, s1, 32
        srli s1, s1, 32
        li a0, -1
        srli a0, a0, 32
        la t0, bytes
        la t1, value
fill:   sb t0, 0(t0)
        addi t0, t0, 1
        bne t0, t1, fill
round:  la t0, bytes
byte:   lbu t2, 0(t0)
        xor a0, a0, t2
        li t3, 8
bit:    andi t4, a0, 1
        sub t4, zero, t4    # all ones, or zero
        and t4, t4, s1
        srli a0, a0, 1
        xor a0, a0, t4
        addi t3, t3, -1
        bnez t3, bit
        addi t0, t0, 1
        bne t0, t1, byte
        addi s0, s0, -1
        bnez s0, round
        xori a0, a0, -1
        sw a0, 0(t1)
        li a0, 1
        mv a1, t1
        li a2, 4
        li a7, 64           # write
        ecall
        li a0, 0
        li a7, 94           # exit_group
        ecall

        .align 4096
bytes:  .space 4096
value:  .space 4
