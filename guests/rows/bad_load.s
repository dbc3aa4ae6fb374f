# Loads from address 16, where nothing is mapped.
_start:
    li a0, 16
    ld a1, 0(a0)
