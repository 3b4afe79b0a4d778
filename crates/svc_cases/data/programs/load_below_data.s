# A load of a word below the data.
.svc_limit 100
.svc_entry
    lui x5, 0x100
    lw x7, -4(x5)
.data
    .word 0, 0
