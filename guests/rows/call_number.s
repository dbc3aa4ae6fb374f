# Ends with the number of its first call, as a7 has it after that call.
_start:
    li a7, 172
    ecall
    mv a0, a7
    li a7, 94
    ecall
