# Forms that compilers and people write for the instructions of the table.
    .svc_entry
    sgt a0, a1, a2
    sgtu t0, t1, t2
    move s0, s1
    lb a0, (a1)
    lh a0, (a1)
    lw a0, (a1)
    lbu a0, (a1)
    lhu a0, (a1)
    sb a0, (a1)
    sh a0, (a1)
    sw a0, (a1)
    jalr (a0)
    jalr -4(a0)
    jalr a0, a1, 8
    jalr a0, a1
    jalr a0, (a1)
    jalr a1, 12
    jr (a0)
    jr 16(a0)
    jr a0, 20
    add a0, a1, -1
    slt a0, a1, 2
    sltu a0, a1, 3
    xor a0, a1, -4
    or a0, a1, 5
    and a0, a1, 0x7f
    add a0, a1, %lo(there)
    sll a0, a1, 7
    srl a0, a1, 8
    sra a0, a1, 31
there:
    add a0, a1, a2 ; and a3, a4, a5; ecall # ; nothing
    nop;;
again: addi a0, a0, 1; bnez a0, again
    .data
    .word 0
