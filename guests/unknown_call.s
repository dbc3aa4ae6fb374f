# Calls a number that names no call, and ends with the errno of the answer: ENOSYS, 38.

_start: li a7, 9999
        ecall
        sub a0, zero, a0    # an error is the errno with its sign turned
        li a7, 94           # exit_group
        ecall
