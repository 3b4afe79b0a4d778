# A load of a half between two halves and below the data: what is told is that it is misaligned.
.svc_limit 100
.svc_entry
    lui x5, 0x100
    lhu x7, -1(x5)
.data
    .word 0, 0
