# cat [FILE]..: writes each file to standard output, or standard input where no file is named.
# A read may give fewer bytes than it was asked for, and gives 0 at the end; a write may take fewer
# than it was given. So each of them stands in a loop. The buffer is small to make the loops show.
# The status is 0, or the errno of the call that failed.

_start: ld s0, 0(sp)        # argc
        addi s1, sp, 16     # argv[1]
        addi s0, s0, -1     # how many files are left
        li s2, 0            # standard input
        beqz s0, copy

open:   li a0, -100         # AT_FDCWD
        ld a1, 0(s1)
        li a2, 0            # O_RDONLY
        li a7, 56           # openat
        ecall
        blt a0, zero, fail
        mv s2, a0

copy:   mv a0, s2
        la a1, buffer
        li a2, 16
        li a7, 63           # read
        ecall
        blt a0, zero, fail
        beqz a0, close      # the end of the file
        mv s3, a0           # how many bytes are left to write
        la s4, buffer       # and where they stand
write:  li a0, 1
        mv a1, s4
        mv a2, s3
        li a7, 64           # write
        ecall
        blt a0, zero, fail
        add s4, s4, a0
        sub s3, s3, a0
        bnez s3, write
        j copy

close:  mv a0, s2
        li a7, 57           # close
        ecall
        addi s1, s1, 8
        addi s0, s0, -1
        blt zero, s0, open
        li a0, 0
        li a7, 94           # exit_group
        ecall

fail:   sub a0, zero, a0    # an error is the errno with its sign turned
        li a7, 94           # exit_group
        ecall

buffer: .space 16
