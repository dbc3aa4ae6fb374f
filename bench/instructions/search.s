# Looks for a string at each place of a text of 4,096 bytes, 150 times. The comparison is a function in another page
# of code, and keeps its arguments on the stack.

_start: li s0, 150          # rounds
        la s1, text
        la s2, end
        mv t0, s1
        li t1, 97
fill:   sb t1, 0(t0)        # a a b a a b ..
        sb t1, 1(t0)
        addi t2, t1, 1
        sb t2, 2(t0)
        addi t0, t0, 3
        blt t0, s2, fill
        li s4, 0            # how often it was found
round:  mv s3, s1
each:   mv a0, s3
        la a1, word
        jal ra, begins
        add s4, s4, a0
        addi s3, s3, 1
        bne s3, s2, each
        addi s0, s0, -1
        bnez s0, round
        mv a0, s4
        li a7, 94           # exit_group
        ecall

        .align 4096
# begins(text, word): whether the text begins with the word
begins: addi sp, sp, -32
        sd ra, 24(sp)
        sd a0, 8(sp)
        sd a1, 16(sp)
byte:   ld t0, 16(sp)
        lbu t1, 0(t0)
        beqz t1, yes
        ld t2, 8(sp)
        lbu t3, 0(t2)
        bne t1, t3, no
        addi t0, t0, 1
        sd t0, 16(sp)
        addi t2, t2, 1
        sd t2, 8(sp)
        j byte
yes:    li a0, 1
        j out
no:     li a0, 0
out:    ld ra, 24(sp)
        addi sp, sp, 32
        ret

word:   .asciz "abaac"
        .align 4096
text:   .space 4096
end:    .space 8
