# A tree of processes. Each one above the lowest level makes two children and waits for both; each ends
# with the number of processes in its part of the tree, itself counted. So the whole tree, three levels
# of it, ends with 7.

_start: li s0, 2            # levels below this process
grow:   li s1, 1            # processes counted so far: this one
        beqz s0, end
        li s2, 2            # children to make
make:   li a0, 17           # SIGCHLD
        li a1, 0
        li a7, 220          # clone: the child's pid, and 0 in the child
        ecall
        beqz a0, child
        addi s2, s2, -1
        bnez s2, make

wait:   li a0, -1           # any child
        la a1, word
        li a2, 0
        li a3, 0
        li a7, 260          # wait4
        ecall
        blt a0, zero, end   # ECHILD: none is left
        lbu t0, 1(a1)       # the exit code is the word's second byte
        add s1, s1, t0
        j wait

child:  addi s0, s0, -1
        j grow

end:    mv a0, s1
        li a7, 94           # exit_group
        ecall

        .align 4
word:   .word 0
