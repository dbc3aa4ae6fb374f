# Loads from address 8, which is not mapped: SIGSEGV with SEGV_MAPERR, status 139.

_start: li t0, 8
        ld t1, 0(t0)
