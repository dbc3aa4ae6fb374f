# A cell holds 7 when its process clones. The child stores 9 there and ends with the cell; the parent waits, and ends
# with the cell as it holds it: neither sees what the other stores in a page that they shared.

_start: la s1, cell
        li t0, 7
        sd t0, 0(s1)
        li a0, 17           # SIGCHLD at the child's end
        li a1, 0
        li a7, 220          # clone
        ecall
        beqz a0, child
        li a0, -1           # any child
        li a1, 0
        li a2, 0
        li a3, 0
        li a7, 260          # wait4
        ecall
        j end
child:  li t0, 9
        sd t0, 0(s1)
end:    ld a0, 0(s1)
        li a7, 94           # exit_group
        ecall

        .align 8
cell:   .dword 0
