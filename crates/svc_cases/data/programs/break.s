# A break.
.svc_limit 100
.svc_entry
    lui x5, 0x100
    ebreak
.data
    .word 0, 0
