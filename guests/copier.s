# copier FROM TO: copies a file, and then sees that both have the same size: fstat tells that of the
# first, and lseek to the end that of the second.
# The status is 0, 1 where the sizes differ, or the errno of the call that failed.

_start: li a0, -100         # AT_FDCWD
        ld a1, 16(sp)       # argv[1]
        li a2, 0            # O_RDONLY
        li a7, 56           # openat
        ecall
        blt a0, zero, fail
        mv s0, a0           # FROM
        li a0, -100
        ld a1, 24(sp)       # argv[2]
        li a2, 0x241        # O_WRONLY, O_CREAT, O_TRUNC
        li a3, 0x1a4        # 0644: the owner may read and write, all others read
        li a7, 56           # openat
        ecall
        blt a0, zero, fail
        mv s1, a0           # TO

copy:   mv a0, s0
        la a1, buffer
        li a2, 16
        li a7, 63           # read
        ecall
        blt a0, zero, fail
        beqz a0, sizes      # the end of the file
        mv s2, a0           # how many bytes are left to write
        la s3, buffer       # and where they stand
write:  mv a0, s1
        mv a1, s3
        mv a2, s2
        li a7, 64           # write
        ecall
        blt a0, zero, fail
        add s3, s3, a0
        sub s2, s2, a0
        bnez s2, write
        j copy

sizes:  mv a0, s0
        la a1, stat
        li a7, 80           # fstat
        ecall
        blt a0, zero, fail
        ld s2, 48(a1)       # st_size
        mv a0, s1
        li a1, 0
        li a2, 2            # SEEK_END
        li a7, 62           # lseek
        ecall
        blt a0, zero, fail
        sub s2, s2, a0

        mv a0, s0
        li a7, 57           # close
        ecall
        blt a0, zero, fail
        mv a0, s1
        li a7, 57           # close
        ecall
        blt a0, zero, fail
        sltu a0, zero, s2   # 1 where they differ
        li a7, 94           # exit_group
        ecall

fail:   sub a0, zero, a0
        li a7, 94           # exit_group
        ecall

        .align 8
stat:   .space 128
buffer: .space 16
