# Sorts 400 double words by insertion, 60 times, each time from the same numbers in disorder. The code is as a
# compiler makes it of C without optimisation: the variables stand on the stack.

_start: li s0, 60           # rounds
round:  la a0, numbers
        li a1, 400
        jal ra, fill
        la a0, numbers
        li a1, 400
        jal ra, sort
        addi s0, s0, -1
        bnez s0, round
        la t0, numbers
        ld a0, 800(t0)
        li a7, 94           # exit_group
        ecall

# fill(numbers, count): numbers[i] = x, where x goes on by 5 x + 12345 modulo 65,536
fill:   addi sp, sp, -48
        sd ra, 40(sp)
        sd a0, 8(sp)        # numbers
        sd a1, 16(sp)       # count
        sd zero, 24(sp)     # i
        li t0, 1
        sd t0, 32(sp)       # x
filled: ld t0, 24(sp)
        ld t1, 16(sp)
        bge t0, t1, fill2
        ld t2, 32(sp)
        slli t3, t2, 2
        add t2, t2, t3
        li t3, 12345
        add t2, t2, t3
        slli t2, t2, 48
        srli t2, t2, 48
        sd t2, 32(sp)
        ld t1, 8(sp)
        slli t3, t0, 3
        add t1, t1, t3
        sd t2, 0(t1)
        addi t0, t0, 1
        sd t0, 24(sp)
        j filled
fill2:  ld ra, 40(sp)
        addi sp, sp, 48
        ret

# sort(numbers, count)
sort:   addi sp, sp, -64
        sd ra, 56(sp)
        sd a0, 8(sp)        # numbers
        sd a1, 16(sp)       # count
        li t0, 1
        sd t0, 24(sp)       # i
outer:  ld t0, 24(sp)
        ld t1, 16(sp)
        bge t0, t1, sorted
        ld t1, 8(sp)
        slli t2, t0, 3
        add t1, t1, t2
        ld t3, 0(t1)
        sd t3, 40(sp)       # x = numbers[i]
        sd t0, 32(sp)       # j = i
inner:  ld t0, 32(sp)
        beqz t0, place
        ld t1, 8(sp)
        slli t2, t0, 3
        add t1, t1, t2
        ld t3, -8(t1)       # numbers[j - 1]
        ld t4, 40(sp)
        bge t4, t3, place
        sd t3, 0(t1)
        ld t0, 32(sp)
        addi t0, t0, -1
        sd t0, 32(sp)
        j inner
place:  ld t0, 32(sp)
        ld t1, 8(sp)
        slli t2, t0, 3
        add t1, t1, t2
        ld t3, 40(sp)
        sd t3, 0(t1)
        ld t0, 24(sp)
        addi t0, t0, 1
        sd t0, 24(sp)
        j outer
sorted: ld ra, 56(sp)
        addi sp, sp, 64
        ret

        .align 4096
numbers: .space 3200
