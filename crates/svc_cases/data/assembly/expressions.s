# What operators make of numbers, and of the addresses of labels, and numbers of eight bytes.
.svc_limit 100
.svc_entry
    li a0, (1 << 20) - 3 * 5
    addi a1, a0, -(2 + 3) * 4
    lw a2, 4 * 3 + 8(a1)
    sw a2, ~7(a1)
    lui a3, 0x12345678 >> 12
    slli a3, a3, 64 / 4 - 1
    lw a4, table + 4 * 2
    la a5, (table + 8 / 4)
    lw a4, %lo(table + 2 * 4)(a5)
    beq a0, a1, behind - 2 * 4
    beq a0, a1, . + (4 << 1)
    ecall
    ecall
behind:
    .align 1 + 1
    ecall
.data
    .align 2
table:
    .word 2 + 3 * 4, (2 + 3) * 4, 2 + 3 | 4, 2 | 3 + 4, 6 & 3 * 2, 1 - 2 << 3, 100 - 10 - 1, 2 * 3 % 4
    .word -7 / 2, -7 % 3, 7 / -2, 7 % -3, -1 >> 40, 1 << 35 >> 34, 1 << 31 >> 31, 0x80000000 / -1
    .word ~5 + 1, - -4, +4, ~-1, -(3 - 5), 3 - (4 - 5), 1 | 2 ^ 7 & 3, 'a' * 2 - '\n'
    .word end - table, (end - table) / 4, table + 4 * 3, . - table
    .half end - table, -1 - 1, 0xffff & ~0xff
    .byte end - table, 1 << 7, -128 / 1, 3 - 4
    .quad 5, -1, 1 << 40, 0xffffffff, -2147483648, 3 - 4, ~0 >> 4
    .8byte 0x12345678 * 0x1000
    .dword 'a', 0xffffffff * 0xffffffff
    .zero 2 * 2, 250 + 5
    .fill 1 + 1, 8 / 4, 1 << 9
    .balign 1 << 3
five = 2 + 3
    .set sixth, table + 4 * 5
    .word five, sixth
end:
    .word 0
