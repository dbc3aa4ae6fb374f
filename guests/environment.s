# Writes each string of the environment on a line of its own.
# The pointers of the environment follow those of argv, behind a null pointer.

_start: ld t0, 0(sp)        # argc
        addi t0, t0, 2      # itself, and the null pointer
        slli t0, t0, 3
        add s0, sp, t0      # the first pointer
each:   ld a1, 0(s0)
        beqz a1, end
        li a2, 0
length: add t0, a1, a2
        lbu t0, 0(t0)
        beqz t0, print
        addi a2, a2, 1
        j length
print:  li a0, 1
        li a7, 64           # write
        ecall
        li a0, 1
        la a1, feed
        li a2, 1
        ecall
        addi s0, s0, 8
        j each
end:    li a0, 0
        li a7, 94           # exit_group
        ecall

feed:   .ascii "\n"
