# Makes two children, each of which asks for its parent's pid, and waits for both.
_start:
    li a0, 17
    li a1, 0
    li a7, 220
    ecall
    beqz a0, child
    li a0, 17
    ecall
    beqz a0, child
    li a0, -1
    li a2, 0
    li a3, 0
    li a7, 260
    ecall
    li a0, -1
    ecall
    li a0, 0
    li a7, 94
    ecall
child:
    li a7, 173
    ecall
    li a0, 0
    li a7, 94
    ecall
