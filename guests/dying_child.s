# By dying_child.turns a child that SIGKILL ends is dying while its parent asks for it: it is there for kill, and not
# yet for wait4, which waits until it has ended.

_start: li a0, 17           # SIGCHLD
        li a1, 0            # the child's stack is its parent's
        li a7, 220          # clone: process 2
        ecall
        beqz a0, end
        li a0, 2
        li a1, 9            # SIGKILL
        li a7, 129          # kill
        ecall
        li a0, 2
        li a1, 0            # the word is written nowhere
        li a2, 1            # WNOHANG
        li a3, 0
        li a7, 260          # wait4
        ecall
        li a0, 2
        li a1, 0            # no signal
        li a7, 129
        ecall
        li a0, 2
        la a1, word
        li a2, 0
        li a7, 260
        ecall
        li a0, 1
        li a2, 4
        li a7, 64           # write
        ecall
end:    li a0, 0
        li a7, 94           # exit_group
        ecall

        .align 8
word:   .dword 0
