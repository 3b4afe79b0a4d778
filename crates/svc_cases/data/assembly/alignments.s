# Sections begin at the largest alignment that is asked for in them.
    .section .rodata
odd:
    .word 1, 2, 3
    .data
first:
    .word 4
    .align 4
stack:
    .zero 16
stack_top:
    .byte 5
    .balign 8
    .byte 6
    .bss
    .zero 3
    .p2align 5
    .zero 1
    .lcomm lone, 5, 16
    .comm shared, 6, 64
    .text
    .svc_entry
    la a0, stack
    la a1, stack_top
    .align 3
    la a2, lone
    .p2align 4
    la a3, shared
    .balign 4
    la a4, odd
    .align 5
    ecall
    .word odd, first, stack, stack_top, lone, shared
    ecall
