# SIGCHLD is ignored, so a child that ends isn't kept for wait4, which then finds none (wait(2), ECHILD).

_start: li a0, 17           # SIGCHLD
        la a1, ignore
        li a3, 8            # the bytes of a mask
        li a7, 134          # rt_sigaction
        ecall
        li a0, 17
        li a1, 0            # the child's stack is its parent's
        li a3, 0
        li a7, 220          # clone
        ecall
        beqz a0, child
        li a0, -1           # any child
        li a7, 260          # wait4
        ecall
        li a0, 0
        li a7, 94           # exit_group
        ecall
child:  li a0, 3
        li a7, 94           # exit_group
        ecall

ignore: .dword 1, 0, 0      # SIG_IGN, no flags, an empty mask
