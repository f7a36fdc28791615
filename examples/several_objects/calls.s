# The numbers of two calls of Linux, as absolute symbols.
        .globl  call_write, call_exit
        .set    call_write, 1
        .set    call_exit, 60
        .section .note.GNU-stack, "", @progbits
