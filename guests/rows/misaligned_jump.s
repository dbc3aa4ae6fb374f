# Jumps to address 2, which is no multiple of 4.
_start:
    jalr x0, 2(x0)
