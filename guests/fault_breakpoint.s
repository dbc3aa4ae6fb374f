# Meets a breakpoint: SIGTRAP with TRAP_BRKPT, status 133.

_start: ebreak
