# Opens the file /note, empties it, and writes it anew. Where it can't be opened it is removed, and made again. Where that
# or the write fails the program says so, and exits with 1. So it bears that /note can't be opened; but not that then it
# can't be made, or written.
_start: li a0, -100         # AT_FDCWD
        la a1, path
        li a2, 0x201        # O_WRONLY, O_TRUNC
        li a7, 56           # openat
        ecall
        bge a0, zero, save
        li a0, -100
        la a1, path
        li a2, 0
        li a7, 35           # unlinkat
        ecall
        li a0, -100
        la a1, path
        li a2, 0xc1         # O_WRONLY, O_CREAT, O_EXCL
        li a3, 0x1a4        # 0644
        li a7, 56
        ecall
        blt a0, zero, fail
save:   la a1, text
        li a2, 6
        li a7, 64           # write
        ecall
        blt a0, zero, fail
        li a0, 0
        li a7, 94           # exit_group
        ecall
fail:   li a0, 2
        la a1, said
        li a2, 10
        li a7, 64
        ecall
        li a0, 1
        li a7, 94
        ecall
path:   .asciz "/note"
text:   .ascii "newer\n"
said:   .ascii "not saved\n"
