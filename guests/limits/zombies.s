# Clones until that fails, with other flags then, waits for one child, and clones twice more; each child ends at once.
_start:
again:
    li a0, 17
    li a1, 0
    li a7, 220
    ecall
    beqz a0, end
    blt zero, a0, again
    li a0, 0
    li a7, 220
    ecall
    li a0, -1
    li a1, 0
    li a2, 0
    li a3, 0
    li a7, 260
    ecall
    li s0, 2
more:
    li a0, 17
    li a1, 0
    li a7, 220
    ecall
    beqz a0, end
    addi s0, s0, -1
    bnez s0, more
end:
    li a0, 0
    li a7, 94
    ecall
