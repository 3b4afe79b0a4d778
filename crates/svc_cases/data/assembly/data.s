# Data of every kind, in three sections that the text goes back and forth between.
.svc_limit 100
.svc_entry
    lui t0, 0x100
    lw a0, 0(t0)
    ecall
    .align 2
.section .rodata.str1.4,"aMS",@progbits,1
    .align 2
.LC0:
    .string "load, # not a \"comment\"\n\t\\"
    .align 2
.LC1: .ascii "a\362b\0011", "x\7"   # two
    .asciz "one", "two\b\f\r"
    .byte 1, -1, 255 , -128
    .half 1,-32768 ,65535
.data
    .align 2
table: .word 1, 2, -3, .LC1, table, end
    .byte 7
    .p2align 2
    .4byte 0xffffffff
    .word 5
.bss
    .align 2
    .set .LANCHOR0,. + 0
    .set five, 5
    .equ behind, .LANCHOR0 - 2
zeros: .zero 10
    .balign 4
end: .zero 4
.section .sdata,"aw"
    .word .LANCHOR0, zeros, five, behind
    .2byte 3
.section .rodata
    .word end
    .byte 9
.section .srodata,"a"
    .short -5
    .skip 3
.text
    addi a0, a0, 1
    .word 5, 6
.section .sbss,"aw",@nobits
    .space 6
