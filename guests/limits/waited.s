# Clones and waits for the child until a clone fails; each child ends at once.
_start:
    li a0, 17
    li a1, 0
    li a7, 220
    ecall
    bge zero, a0, end
    li a0, -1
    li a1, 0
    li a2, 0
    li a3, 0
    li a7, 260
    ecall
    j _start
end:
    li a0, 0
    li a7, 94
    ecall
