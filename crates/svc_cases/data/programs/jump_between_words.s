# A jump between two words.
.svc_limit 100
.svc_entry
    lui x5, 0x100
    j . + 2
.data
    .word 0, 0
