# Writes three bytes from an address that is not mapped, and ends with the errno of the answer:
# EFAULT, 14. A call does not fault the guest.

_start: li a0, 1
        li a1, 8
        li a2, 3
        li a7, 64           # write
        ecall
        sub a0, zero, a0
        li a7, 94           # exit_group
        ecall
