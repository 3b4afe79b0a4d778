# A word of zeros, which is no instruction.
.svc_limit 100
.svc_entry
    lui x5, 0x100
    .word 0
.data
    .word 0, 0
