.svc_entry
load:   lui t0, 0x100
        lw a0, 0(t0)
        addi a7, zero, 1        # puts out a0
        ecall
        mv a7, zero             # exits with a0
        ecall
.data
.word 0
