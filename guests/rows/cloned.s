# Clones, waits for the child of the pid that it was told, and ends with that pid.
_start:
    li a0, 17
    li a1, 0
    li a7, 220
    ecall
    mv s0, a0
    li a1, 0
    li a2, 0
    li a3, 0
    li a7, 260
    ecall
    mv a0, s0
    li a7, 94
    ecall
