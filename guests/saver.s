# saver: waits for a line, and saves a note to the file /note. Of its five error paths three are right: openat, read and
# close end it with a status of their own. A write that fails goes unnoticed; and where a signal interrupted the read it
# looks at the same result again, for ever, where it meant to read again.

_start: li a0, -100         # AT_FDCWD
        la a1, path
        li a2, 0x241        # O_WRONLY, O_CREAT, O_TRUNC
        li a3, 0x1a4        # 0644
        li a7, 56           # openat
        ecall
        li s1, 1
        blt a0, zero, fail
        mv s0, a0

        li a0, 0
        la a1, line
        li a2, 64
        li a7, 63           # read
        ecall
        li t0, -4           # EINTR
again:  beq a0, t0, again   # this jumps one line too few
        li s1, 2
        blt a0, zero, fail

        mv a0, s0
        la a1, note
        li a2, 6
        li a7, 64           # write
        ecall               # whose result nobody looks at

        mv a0, s0
        li a7, 57           # close
        ecall
        li s1, 3
        blt a0, zero, fail

        li s1, 0
fail:   mv a0, s1
        li a7, 94           # exit_group
        ecall

path:   .asciz "/note"
note:   .ascii "saved\n"
line:   .space 64
