# Ends with status 42 and writes nothing: the shortest guest.

_start: li a0, 42
        li a7, 94           # exit_group
        ecall
