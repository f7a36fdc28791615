# Runs the constructors, in the order in which their functions stand, then the program, and ends with what it answers.
        .globl  _start
        .text
_start: xorl    %ebp, %ebp
        movq    $__init_array_start, %rbx
1:      cmpq    $__init_array_end, %rbx
        jae     2f
        call    *(%rbx)
        addq    $8, %rbx
        jmp     1b
2:      call    run
        movl    %eax, %edi
        movl    $60, %eax
        syscall

# long write_to(long file, const char *text, long size)
        .globl  write_to
write_to:
        movl    $1, %eax
        syscall
        ret

        .section .note.GNU-stack, "", @progbits
