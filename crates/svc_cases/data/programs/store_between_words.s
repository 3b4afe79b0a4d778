# A store of a word between two words.
.svc_limit 100
.svc_entry
    lui x5, 0x100
    addi x1, x0, 5
    sw x1, 2(x5)
.data
    .word 0, 0
