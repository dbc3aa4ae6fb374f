# A small allocator over brk. A block is a head of 8 bytes, which holds the block's size, and then its
# bytes, a multiple of 8. Blocks that were given back stand in a list: the first 8 bytes of each hold the
# address of the next. `allocate` takes the first of them that is large enough, and moves the break where
# none is; so the log has a brk for each block that is new, and none for one that is used again.
# The status is 0, or the number of the check that failed.

_start: li a0, 0            # no place for the break, so it stays, and is told
        li a7, 214          # brk
        ecall
        mv s0, a0           # the heap's start
        la t0, top
        sd a0, 0(t0)

        li s2, 1            # a new block is zero
        li a0, 20
        jal ra, allocate
        mv s1, a0
        jal ra, bits
        bnez a0, wrong

        li s2, 2            # the next one too, though the first was filled
        mv a0, s1
        jal ra, fill
        li a0, 100
        jal ra, allocate
        mv s3, a0
        jal ra, bits
        bnez a0, wrong

        li s2, 3            # blocks that were given back are used again
        mv a0, s3
        jal ra, release
        mv a0, s1
        jal ra, release
        li a0, 60
        jal ra, allocate
        bne a0, s3, wrong   # the other one, first in the list, is too small
        li a0, 24
        jal ra, allocate
        bne a0, s1, wrong

        li s2, 4            # a page that was given back and asked for again is zero
        mv a0, s0
        li a7, 214          # brk
        ecall
        lui t0, 1           # 4096
        add a0, s0, t0
        li a7, 214          # brk
        ecall
        ld t0, 8(s0)        # the first block was filled
        bnez t0, wrong

        li a0, 1
        la a1, text
        li a2, 14
        li a7, 64           # write
        ecall
        li s2, 0
wrong:  mv a0, s2
        li a7, 94           # exit_group
        ecall

# The address of a block of at least a0 bytes, or 0 where the heap can't grow.
allocate:
        bnez a0, some
        li a0, 1            # a block in the list holds an address
some:   addi a0, a0, 7
        andi a0, a0, -8
        la t0, free         # where the address of the next block in the list stands
look:   ld t1, 0(t0)
        beqz t1, grow
        ld t2, -8(t1)       # its size
        bgeu t2, a0, take
        mv t0, t1
        j look
take:   ld t2, 0(t1)        # the one behind it takes its place in the list
        sd t2, 0(t0)
        mv a0, t1
        ret
grow:   mv t3, a0
        la t0, top
        ld t1, 0(t0)
        add a0, t1, t3
        addi a0, a0, 8      # the head
        mv t4, a0
        li a7, 214          # brk: the break as it is then, so another one is a refusal
        ecall
        bne a0, t4, none
        sd a0, 0(t0)
        sd t3, 0(t1)
        addi a0, t1, 8
        ret
none:   li a0, 0
        ret

# Gives the block at a0 back.
release:
        la t0, free
        ld t1, 0(t0)
        sd t1, 0(a0)
        sd a0, 0(t0)
        ret

# Fills the block at a0 with ones.
fill:   ld t0, -8(a0)
        add t0, a0, t0      # its end
        li t1, -1
ones:   sd t1, 0(a0)
        addi a0, a0, 8
        bltu a0, t0, ones
        ret

# All doublewords of the block at a0, joined by or: 0 where the block is zero.
bits:   ld t0, -8(a0)
        add t0, a0, t0
        li t1, 0
more:   ld t2, 0(a0)
        or t1, t1, t2
        addi a0, a0, 8
        bltu a0, t0, more
        mv a0, t1
        ret

        .align 8
top:    .dword 0            # the break
free:   .dword 0            # the first block in the list
text:   .ascii "heap in order\n"
