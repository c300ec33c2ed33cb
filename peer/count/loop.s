# A program whose count is known: 7 instructions a million times, 2 before them and 3 after them. One of the seven goes over
# the end of a page.
        .globl _start
        .text
        .balign 4096
        .skip 4096 - 18
_start: mov $1000000, %ecx
        xor %eax, %eax
1:      add $1, %rax
        nop
        nop
        nop
        add $1000, %rdx
        dec %ecx
        jnz 1b
        mov $60, %eax
        xor %edi, %edi
        syscall
