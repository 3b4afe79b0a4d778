# What other texts use.
    .globl helped, leave
helped:
    addi a0, a0, 2
    j step
step:
    ret
leave:
    lui a1, %hi(shared)
    lw a0, %lo(shared)(a1)
    li a7, 0
    ecall
.data
    .byte 9
    .half 3
    .section .rodata
    .balign 8
    .byte 1
    .word helped, leave - helped
