# A write to a pipe that nobody reads ends the process by SIGPIPE.

_start: la a0, ends
        li a7, 59           # pipe2
        ecall
        li a0, 3            # the reading end
        li a7, 57           # close
        ecall
        li a0, 4            # the writing end
        la a1, text
        li a2, 1
        li a7, 64           # write
        ecall

ends:   .dword 0
text:   .ascii "a"
