# FENCE.I, which is no instruction here.
.svc_limit 100
.svc_entry
    lui x5, 0x100
    .word 0x0000100f
.data
    .word 0, 0
