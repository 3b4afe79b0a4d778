# A break in the turn after the last that the task may take.
.svc_limit 1
.svc_entry
    lui x5, 0x100
    ebreak
.data
    .word 0, 0
