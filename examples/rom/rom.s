# A flash ROM of 64 KiB: the processor begins 16 bytes below 4 GiB, in real mode, and the image file is what it finds there.

# The first 4096 bytes of the image hold its headers and what is only read. The code begins after them, so it is 4096 bytes
# shorter than the ROM, and .org puts an instruction at its address.
.set in_rom, 0x1000

.section .rodata, "a", @progbits
greeting:
    .asciz "protected mode, from the ROM\n"

.text
.org 0xe000
# In real mode an address is an offset from the base of the code segment, 0xffff0000, where the ROM begins.
.code16
real_mode:
    cli
    lgdtl %cs:gdt_pointer - real_mode + in_rom + 0xe000
    mov %cr0, %eax
    or $1, %al
    mov %eax, %cr0
    ljmpl $8, $protected_mode

.code32
protected_mode:
    mov $16, %eax
    mov %eax, %ds
    mov %eax, %es
    mov %eax, %ss
    mov $0x7000, %esp
    mov $greeting, %esi
    mov $0x3f8, %dx                 # the first serial port
1:  lodsb
    test %al, %al
    jz 2f
    out %al, %dx
    jmp 1b
2:  mov $0xf4, %dx                  # QEMU's isa-debug-exit ends with twice this and 1
    mov $0x10, %al
    out %al, %dx
3:  hlt
    jmp 3b

.balign 8
gdt:
    .quad 0
    .quad 0x00cf9a000000ffff        # code of 32 bits, from 0 to 4 GiB
    .quad 0x00cf92000000ffff        # data
gdt_pointer:
    .word . - gdt - 1
    .long gdt

# The reset vector, at 0xfffffff0.
.org 0xfff0 - in_rom
.code16
.globl _start
.type _start, @function
_start:
    jmp real_mode
.size _start, . - _start
.org 0x10000 - in_rom

.section .note.GNU-stack, "", @progbits
