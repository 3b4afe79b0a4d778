# Names of two instructions, parts of values, and sums.
    .text
.svc_register sp, table + 8
.svc_entry
start:
    li a0, 5
    li a1, -2048
    li a2, 2047
    li a3, 2048
    li a4, 0x12345678
    li a5, 0xfffff000
    li a6, -2147483648
    li a7, 0x7fffffff
    li s0, 0xfffff800
    li s1, 4294965247
    la t0, table
    lla t1, start
    call start
    call far
    tail start + 4
    lui a0,%hi(table+12)
    addi a0,a0,%lo(table+12)
    lw a1,%lo(table)(a0)
    sw a1,%lo(table-4)(a0)
    auipc a0,%pcrel_hi(table)
    jalr x1, %lo(far)(a0)
far:
    ret
    .data
    .word 7
    .word start+4
table:
    .word table-4
    .word -1
    .word . + 8
    .word . - 4
    .word -4294967295
