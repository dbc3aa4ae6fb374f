# Stores into the page that signal handlers return to, which may be read and executed alone:
# SIGSEGV with SEGV_ACCERR, status 139.

_start: li t0, 1
        slli t0, t0, 38
        lui t1, 1
        sub t0, t0, t1      # 0x3ffffff000
        sb zero, 0(t0)
