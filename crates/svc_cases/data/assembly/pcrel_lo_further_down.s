# %pcrel_lo of a label further down
.svc_entry
    j high
low:
    lw a0, %pcrel_lo(high)(t0)
    beq a0, zero, leave
    sw a0, %pcrel_lo(1f)(t1)
leave:
    li a7, 0
    ecall
high:
    auipc t0, %pcrel_hi(words + 4)
1:  auipc t1, %pcrel_hi(made)
    j low
.data
words:
    .word 7, 8
.bss
made:
    .zero 4
