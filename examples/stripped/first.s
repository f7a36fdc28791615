# Exits with 0 where each part of it has what is written here: data, and, without the name BARE, read-only data, zeros, a common
# block, and thread-local data and zeros.
        .globl  _start
        .text
_start: mov     data(%rip), %edi
        sub     $7, %edi
        .ifndef BARE
        add     fixed(%rip), %edi
        sub     $5, %edi
        add     zeros(%rip), %edi
        add     block(%rip), %edi
        .endif
        mov     $60, %eax
        syscall
        .data
data:   .long   7
        .ifndef BARE
        .section .rodata, "a"
fixed:  .long   5
        .bss
zeros:  .zero   8
        .section .tdata, "awT"
        .long   3
        .section .tbss, "awT", @nobits
        .zero   4
        .comm   block, 16, 8
        .endif
        .section .note.GNU-stack, ""
