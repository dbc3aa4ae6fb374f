# A child is stopped by SIGSTOP, and nobody has it go on: its parent waits for ever, and nobody can take a turn.

_start: li a0, 17           # SIGCHLD
        li a1, 0            # the child's stack is its parent's
        li a7, 220          # clone: process 2
        ecall
        beqz a0, child
        li a0, 2
        li a1, 19           # SIGSTOP
        li a7, 129          # kill
        ecall
        li a0, 2
        li a1, 0            # the word is written nowhere
        li a2, 0            # an end alone
        li a3, 0
        li a7, 260          # wait4
        ecall
        li a0, 0
        li a7, 94           # exit_group
        ecall
child:  li a0, 3
        li a7, 94
        ecall
