# Jumps to an address that is no multiple of 4: SIGBUS with BUS_ADRALN, status 135.

_start: la t0, there
        jalr zero, 2(t0)
there:  nop
