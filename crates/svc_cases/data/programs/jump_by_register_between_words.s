# A jump by a register between two words.
.svc_limit 100
.svc_entry
    lui x5, 0x100
    jalr x7, 2(x0)
.data
    .word 0, 0
