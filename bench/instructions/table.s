# A hash table of 1,024 places over 4 pages, with keys and counts, open addressing: 250 keys are counted in turn, 1,000
# times. The look-up is a function with a frame of its own.

_start: li s0, 1000         # rounds
        li s2, 0
round:  li s1, 250          # keys
key:    mv a0, s1
        jal ra, count
        add s2, s2, a0
        addi s1, s1, -1
        bnez s1, key
        addi s0, s0, -1
        bnez s0, round
        mv a0, s2
        li a7, 94           # exit_group
        ecall

# count(key): adds 1 to the key's count, and gives it
count:  addi sp, sp, -48
        sd ra, 40(sp)
        sd a0, 8(sp)
        jal ra, hash
        sd a0, 16(sp)       # the place
probe:  ld t0, 16(sp)
        la t1, table
        slli t2, t0, 4
        add t1, t1, t2
        ld t3, 0(t1)
        ld t4, 8(sp)
        beq t3, t4, found
        beqz t3, new
        addi t0, t0, 1
        andi t0, t0, 1023
        sd t0, 16(sp)
        j probe
new:    sd t4, 0(t1)
found:  ld a0, 8(t1)
        addi a0, a0, 1
        sd a0, 8(t1)
        ld ra, 40(sp)
        addi sp, sp, 48
        ret

# hash(key): (key * 37 + key / 8) modulo 1,024
hash:   slli t0, a0, 5
        slli t1, a0, 2
        add t0, t0, t1
        add t0, t0, a0
        srli t1, a0, 3
        add t0, t0, t1
        andi a0, t0, 1023
        ret

        .align 4096
table:  .space 16384
