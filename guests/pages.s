# Writes to each page of 60,030,976 bytes.
_start: li a0, 0
        li a1, 60030976
        li a2, 3            # to be read and written
        li a3, 0x22         # private, of no file
        li a4, -1
        li a5, 0
        li a7, 222          # mmap
        ecall
        li t0, 14656        # pages
        li t1, 4096
page:   sb t0, 0(a0)
        add a0, a0, t1
        addi t0, t0, -1
        bnez t0, page
        li a0, 0
        li a7, 94           # exit_group
        ecall
