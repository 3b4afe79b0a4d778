# %pcrel_lo names the label of the auipc whose %pcrel_hi it completes
.svc_entry
near:
    auipc t0, %pcrel_hi(words+4)
    lw a0, %pcrel_lo(near)(t0)
1:  auipc a1, %pcrel_hi(half)
    addi a1, a1, %pcrel_lo(1b)
    lhu a2, 0(a1)
2:  auipc t1, %pcrel_hi(made)
    nop
    sw a0, %pcrel_lo(2b)(t1)
    sh a2, %pcrel_lo ( 2b ) ( t1 )
back: auipc t2, %pcrel_hi(near + 8)
    lb a3, %pcrel_lo(back)(t2)
    lui t3, %pcrel_hi(words)
1:  auipc t4, %pcrel_hi(leave)
    jalr zero, %pcrel_lo(1b)(t4)
    lw a0, %pcrel_lo(near)(t0)
leave:
    li a7, 0
    ecall
.rodata
half:
    .half 513, 2
.data
    .zero 2048
words:
    .word 7, 0x01020304
.bss
made:
    .zero 8
