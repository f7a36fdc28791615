# From the boot loader to C: the header by which a multiboot loader knows a kernel, and the way into long mode.

# A loader looks for it in the first 8192 bytes of the file, and loads by the addresses here, as it takes no 64-bit ELF file
# by its headers: the image file from its first byte on is what is in memory from its base on, and after the last byte zeros
# follow up to _end (Multiboot Specification 0.6.96, 3.1).
.section .multiboot, "a", @progbits
.balign 4
header:
    .long 0x1badb002                # magic
    .long 0x10000                   # flags: the addresses below count
    .long -(0x1badb002 + 0x10000)   # the sum of the three is 0
    .long header
    .long __executable_start        # where the file's first byte goes
    .long _edata                    # the end of what is loaded
    .long _end                      # the end of what is zero
    .long _start

.text
.code32
.globl _start
.type _start, @function
_start:
    cli
    mov $stack_top, %esp

    # The first GiB is mapped to itself: one table of level 4, one of level 3, and 512 pages of 2 MiB.
    mov $level_3 + 3, %eax
    mov %eax, level_4
    mov $level_2 + 3, %eax
    mov %eax, level_3
    mov $0x83, %eax
    xor %ecx, %ecx
1:  mov %eax, level_2(, %ecx, 8)
    add $0x200000, %eax
    inc %ecx
    cmp $512, %ecx
    jne 1b

    mov $level_4, %eax
    mov %eax, %cr3
    mov %cr4, %eax
    or $0x20, %eax                  # PAE
    mov %eax, %cr4
    mov $0xc0000080, %ecx           # EFER
    rdmsr
    or $0x100, %eax                 # LME
    wrmsr
    mov %cr0, %eax
    or $0x80000000, %eax            # PG
    mov %eax, %cr0
    lgdt gdt_pointer
    ljmp $8, $long_mode

.code64
long_mode:
    xor %eax, %eax
    mov %eax, %ds
    mov %eax, %es
    mov %eax, %ss
    call kernel
    mov $0xf4, %dx                  # QEMU's isa-debug-exit ends with twice this and 1
    mov $0x10, %al
    out %al, %dx
1:  hlt
    jmp 1b
.size _start, . - _start

.section .rodata, "a", @progbits
.balign 8
gdt:
    .quad 0
    .quad 0x00209a0000000000        # code of 64 bits
gdt_pointer:
    .word . - gdt - 1
    .long gdt

.bss
.balign 4096
level_4: .zero 4096
level_3: .zero 4096
level_2: .zero 4096
.balign 16
stack: .zero 16384
stack_top:

.section .note.GNU-stack, "", @progbits
