# Clones 64 times, waits for no child, and ends; each child ends at once.
_start:
    li s0, 64
again:
    li a0, 17
    li a1, 0
    li a7, 220
    ecall
    beqz a0, child
    addi s0, s0, -1
    bnez s0, again
child:
    li a0, 0
    li a7, 94
    ecall
