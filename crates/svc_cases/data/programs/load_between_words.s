# A load of a word between two words.
.svc_limit 100
.svc_entry
    lui x5, 0x100
    lw x7, 2(x5)
.data
    .word 0, 0
