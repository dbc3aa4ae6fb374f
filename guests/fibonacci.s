# Writes the Fibonacci numbers below 1000 in three digits, each on a line.
# There is no division in RV64I: a digit is found by taking away powers of ten.

_start: li s0, 0            # this number
        li s1, 1            # the next one
each:   mv a0, s0
        jal ra, print
        add t0, s0, s1
        mv s0, s1
        mv s1, t0
        li t1, 1000
        blt s0, t1, each
        li a0, 0
        li a7, 94           # exit_group
        ecall

# Writes the number in a0, which is below 1000, and a line feed.
print:  la t0, line         # where the next digit goes
        la t1, powers
digit:  lw t2, 0(t1)
        beqz t2, write
        li t3, 48           # '0'
more:   blt a0, t2, done
        sub a0, a0, t2
        addi t3, t3, 1
        j more
done:   sb t3, 0(t0)
        addi t0, t0, 1
        addi t1, t1, 4
        j digit
write:  li a0, 1
        la a1, line
        li a2, 4
        li a7, 64           # write
        ecall
        ret

        .align 4
powers: .word 100, 10, 1, 0
line:   .ascii "000\n"
