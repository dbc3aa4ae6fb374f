# Reads the file /note, empties it, and writes it anew. Where that fails it writes the old note again, says so, and exits
# with 1. So no failure of one call destroys the note; a disk that stays full does.
_start: li a0, -100         # AT_FDCWD
        la a1, path
        li a2, 0            # O_RDONLY
        li a7, 56           # openat
        ecall
        li s2, 2
        blt a0, zero, end
        la a1, room
        li a2, 64
        li a7, 63           # read
        ecall
        li s2, 3
        blt a0, zero, end
        mv s1, a0
        li a0, -100
        la a1, path
        li a2, 0x201        # O_WRONLY, O_TRUNC
        li a7, 56
        ecall
        li s2, 4
        blt a0, zero, end
        mv s0, a0
        la a1, text
        li a2, 6
        li a7, 64           # write
        ecall
        li s2, 0
        bge a0, zero, end
        mv a0, s0
        la a1, room
        mv a2, s1
        ecall
        li a0, 2
        la a1, said
        li a2, 10
        ecall
        li s2, 1
end:    mv a0, s2
        li a7, 94           # exit_group
        ecall
path:   .asciz "/note"
text:   .ascii "newer\n"
said:   .ascii "not saved\n"
room:   .space 64
