# A word whose lowest bits are those of an instruction of 16 bits.
.svc_limit 100
.svc_entry
    lui x5, 0x100
    .word 1
.data
    .word 0, 0
