# The entry, and a call of the system that writes.
        .text
        .globl  _start
        .type   _start, @function
_start:
        xorl    %ebp, %ebp
        call    run
        movl    %eax, %edi
        movl    $60, %eax
        syscall
        .size   _start, .-_start

# put(bytes, length): writes bytes to standard output.
        .globl  put
        .type   put, @function
put:
        movq    %rsi, %rdx
        movq    %rdi, %rsi
        movl    $1, %edi
        movl    $1, %eax
        syscall
        ret
        .size   put, .-put
        .section .note.GNU-stack, "", @progbits
