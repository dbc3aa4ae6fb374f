# A child's child outlives its parent: it has no parent then, and isn't kept for anybody when it ends. A child that was
# waited for isn't kept longer. kill finds neither.

_start: li a0, 17           # SIGCHLD
        li a1, 0            # the child's stack is its parent's
        li a7, 220          # clone: process 2
        ecall
        bnez a0, parent
        li a0, 17
        li a7, 220          # clone: process 3
        ecall
        bnez a0, end
        li a7, 173          # getppid, when process 2 has ended
        ecall
        j end

parent: li a2, 0
        li a3, 0
        li a7, 260          # wait4
        ecall
        li t0, 500          # process 3 ends
count:  addi t0, t0, -1
        bnez t0, count
        li a0, 3
        li a1, 0            # no signal
        li a7, 129          # kill
        ecall
        li a0, 2
        ecall
end:    li a0, 0
        li a7, 94           # exit_group
        ecall
