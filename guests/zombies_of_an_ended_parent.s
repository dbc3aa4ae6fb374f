# A process ends with a zombie for a child. It leaves the table with its parent, so process 1 finds nobody by its pid,
# and has no other child.

_start: li a0, 17           # SIGCHLD
        li a1, 0            # the child's stack is its parent's
        li a7, 220          # clone: process 2
        ecall
        bnez a0, parent
        la a0, ends
        li a7, 59           # pipe2
        ecall
        li a0, 17
        li a7, 220          # clone: process 3, which ends
        ecall
        beqz a0, end
        la s0, ends
        lw a0, 4(s0)
        li a7, 57           # close
        ecall
        lw a0, 0(s0)
        la a1, ends
        li a2, 1
        li a7, 63           # read, which waits until process 3 has ended
        ecall
        li a0, 3
        li a1, 0            # no signal
        li a7, 129          # kill: the zombie is there
        ecall
        j end

parent: li a2, 0
        li a3, 0
        li a7, 260          # wait4
        ecall
        li a0, 3
        li a7, 129          # kill
        ecall
        li a0, -1           # any child
        li a7, 260
        ecall
end:    li a0, 0
        li a7, 94           # exit_group
        ecall

        .align 8
ends:   .dword 0
