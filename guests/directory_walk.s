# Makes /tower and /tower/room, walks into them and up again, and writes where it is after each step.
# `..` leads up; that of the root is the root itself.
# The status is 0, or the errno of the call that failed.

_start: la s0, tower
        jal ra, make
        jal ra, enter
        la s0, room
        jal ra, make
        jal ra, enter
        la s0, up
        jal ra, enter
        jal ra, enter
        jal ra, enter       # in the root already
        la s0, whole
        jal ra, enter
        li a0, 0
        li a7, 94           # exit_group
        ecall

# Makes the directory with the path at s0.
make:   li a0, -100         # AT_FDCWD: a relative path begins in the working directory
        mv a1, s0
        li a2, 0x1ed        # 0755: all may read and enter it, the owner write
        li a7, 34           # mkdirat
        ecall
        blt a0, zero, fail
        ret

# Makes the path at s0 the working directory, and writes that directory's own path on a line.
enter:  mv a0, s0
        li a7, 49           # chdir
        ecall
        blt a0, zero, fail
        la a0, path
        li a1, 32
        li a7, 17           # getcwd: the length, its NUL counted
        ecall
        blt a0, zero, fail
        mv a2, a0
        la a1, path
        add t0, a1, a2
        li t1, 10           # a line feed in the place of the NUL
        sb t1, -1(t0)
        li a0, 1
        li a7, 64           # write
        ecall
        blt a0, zero, fail
        ret

fail:   sub a0, zero, a0
        li a7, 94           # exit_group
        ecall

tower:  .asciz "tower"
room:   .asciz "room"
up:     .asciz ".."
whole:  .asciz "/tower/./room//"
path:   .space 32
