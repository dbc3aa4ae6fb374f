# Stores to the return page, which is read and executed, and not written.
_start:
    li a0, 1
    slli a0, a0, 38
    li a1, 1
    slli a1, a1, 12
    sub a0, a0, a1      # 0x3ffffff000
    sd a1, 0(a0)
