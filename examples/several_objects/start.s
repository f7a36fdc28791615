# The entry, and the two calls of the system: the number of each is a symbol of calls.s.
        .text
        .globl  _start
        .type   _start, @function
_start:
        xorl    %ebp, %ebp
        call    run
        movl    %eax, %edi
        movabsq $call_exit, %rax
        syscall
        .size   _start, .-_start

# put(bytes, length): writes bytes to standard output.
        .globl  put
        .type   put, @function
put:
        movq    %rsi, %rdx
        movq    %rdi, %rsi
        movl    $1, %edi
        movabsq $call_write, %rax
        syscall
        ret
        .size   put, .-put
        .section .note.GNU-stack, "", @progbits
