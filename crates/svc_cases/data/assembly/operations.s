# Each operation, shift and branch on four pairs of numbers, a task for each pair: it puts out the results, and for a branch 8
# where it is taken and 4 where it isn't. The first data word has where the next pair lies.
.svc_limit 200
.svc_register s0, next
.svc_entry
first:
    lw s1, 0(s0)
    lw t0, 0(s1)
    lw t1, 4(s1)
    li a7, 1
    add a0, t0, t1
    ecall
    li a0, 8
    beq t0, t1, . + 8
    li a0, 4
    ecall
    sll a0, t0, t1
    ecall
    li a0, 8
    bne t0, t1, . + 8
    li a0, 4
    ecall
    slt a0, t0, t1
    ecall
    sltu a0, t0, t1
    ecall
    xor a0, t0, t1
    ecall
    li a0, 8
    blt t0, t1, . + 8
    li a0, 4
    ecall
    srl a0, t0, t1
    ecall
    li a0, 8
    bge t0, t1, . + 8
    li a0, 4
    ecall
    or a0, t0, t1
    ecall
    li a0, 8
    bltu t0, t1, . + 8
    li a0, 4
    ecall
    and a0, t0, t1
    ecall
    li a0, 8
    bgeu t0, t1, . + 8
    li a0, 4
    ecall
    sub a0, t0, t1
    ecall
    sra a0, t0, t1
    ecall
    addi a0, t0, 1
    ecall
    addi a0, t0, -2048
    ecall
    addi a0, t0, -1
    ecall
    slti a0, t0, -1
    ecall
    slti a0, t0, 2047
    ecall
    sltiu a0, t0, -1
    ecall
    sltiu a0, t0, 2047
    ecall
    xori a0, t0, -1
    ecall
    ori a0, t0, 2047
    ecall
    andi a0, t0, -2048
    ecall
    slli a0, t0, 0
    ecall
    slli a0, t0, 31
    ecall
    srli a0, t0, 0
    ecall
    srli a0, t0, 31
    ecall
    srai a0, t0, 0
    ecall
    srai a0, t0, 31
    ecall
    addi s1, s1, 8
    sw s1, 0(s0)
    lw t0, 4(s0)
    bne s1, t0, first
    li a7, 0
    li a0, 0
    ecall
.data
next:
    .word pairs, end
pairs:
    .word 0x7fffffff, 1
    .word 0x80000000, 0xffffffff
    .word 0xffffffff, 1
    .word 0x80000000, 0x80000000
end:
