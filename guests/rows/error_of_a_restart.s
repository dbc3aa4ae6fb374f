# Ends with a fourth of the error of its first call.
_start:
    li a7, 172
    ecall
    sub a0, zero, a0
    srai a0, a0, 2
    li a7, 94
    ecall
