# SIGSEGV of a load ends the process though it is ignored.

_start: li a0, 11           # SIGSEGV
        la a1, ignore
        li a2, 0
        li a3, 8            # the bytes of a mask
        li a7, 134          # rt_sigaction
        ecall
        li t0, 16
        ld t1, 0(t0)
        li a0, 7
        li a7, 94           # exit_group
        ecall

        .align 8
ignore: .dword 1, 0, 0      # SIG_IGN, no flags, an empty mask
