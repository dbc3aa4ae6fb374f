# Runs into a word that is no instruction: SIGILL with ILL_ILLOPC, status 132.

_start: nop
        .word 0
