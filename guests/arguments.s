# Writes each argument on a line of its own, the program's name first.
# At the start sp points at argc, and the pointers of argv follow it.

_start: ld s0, 0(sp)        # argc
        addi s1, sp, 8      # argv
each:   beqz s0, end
        ld a1, 0(s1)
        li a2, 0
length: add t0, a1, a2
        lbu t0, 0(t0)
        beqz t0, print
        addi a2, a2, 1
        j length
print:  li a0, 1
        li a7, 64           # write
        ecall
        li a0, 1
        la a1, feed
        li a2, 1
        ecall
        addi s1, s1, 8
        addi s0, s0, -1
        j each
end:    li a0, 0
        li a7, 94           # exit_group
        ecall

feed:   .ascii "\n"
