# A text whose last line has no line feed: another one begins a line of its own.
.svc_limit 100
.svc_entry
store:  lui t0, 0x100           # the data begins at 0x00100000
        addi ra, zero, 5
        sw ra, 0(t0)
.data
.word 0

.svc_entry
load:   lui t0, 0x100
        lw a0, 0(t0)
        addi a7, zero, 1        # puts out a0
        ecall
        mv a7, zero             # exits with a0
        ecall
.data
.word 0
