# Each other name of an instruction that is one word, and each name of a register.
.svc_entry
back:
    mv a0, a1
    not a1, a2
    neg a2, a3
    seqz a3, a4
    snez a4, a5
    sltz a5, a6
    sgtz a6, a7
    beqz t0, back
    bnez t1, back
    blez t2, back
    bgez t3, ahead
    bltz t4, ahead
    bgtz t5, ahead
    bgt s0, s1, back
    ble s2, s3, back
    bgtu s4, s5, ahead
    bleu s6, s7, ahead
ahead:
    j back
    jal back
    jr s8
    jalr s9
    ret
    nop
    fence
    fence.tso
    add zero, ra, sp
    sub gp, tp, t0
    xor t1, t2, s0
    or fp, s1, a0
    and a1, a2, a3
    sll a4, a5, a6
    srl a7, s2, s3
    sra s4, s5, s6
    slt s7, s8, s9
    sltu s10, s11, t3
    add t4, t5, t6
