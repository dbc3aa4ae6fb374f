# Ends with the error of its first call.
_start:
    li a7, 172
    ecall
    sub a0, zero, a0
    li a7, 94
    ecall
