# SIGSEGV of a load has a handler, which ends the process with 7.

_start: li a0, 11           # SIGSEGV
        la a1, action
        la t0, handler
        sd t0, 0(a1)
        li a2, 0
        li a3, 8            # the bytes of a mask
        li a7, 134          # rt_sigaction
        ecall
        li t0, 16
        ld t1, 0(t0)
        li a0, 0
        j end
handler: li a0, 7
end:    li a7, 94           # exit_group
        ecall

        .align 8
action: .dword 0, 0, 0
