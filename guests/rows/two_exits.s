# Exits with 0, and, where that fails, with 5.
_start:
    li a0, 0
    li a7, 94
    ecall
    li a0, 5
    ecall
