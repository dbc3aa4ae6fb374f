# Sets a handler for SIGUSR1 and asks for its pid with a stack that ends at address 0.
_start:
    la t0, handler
    la a1, action
    sd t0, 0(a1)
    li a0, 10
    li a2, 0
    li a3, 8
    li a7, 134
    ecall
    li sp, 0
    li a7, 172
    ecall
handler:
    ret
    .align 8
action:
    .dword 0
    .dword 0
    .dword 0
