# Process 1 stops its child and kills it, and ends with what wait4 answers of it under WNOHANG and WUNTRACED.
_start: li a0, 17
        li a1, 0
        li a7, 220
        ecall
        beqz a0, child
        la s0, list
next:   lbu a1, 0(s0)
        beqz a1, end
        addi s0, s0, 1
        li a0, 2
        li a7, 129
        ecall
        j next
end:    li a0, 2
        li a1, 0
        li a2, 3
        li a3, 0
        li a7, 260
        ecall
        li a7, 94
        ecall
child:  li a7, 172
        ecall
        j child
list:   .byte 19, 9, 0
