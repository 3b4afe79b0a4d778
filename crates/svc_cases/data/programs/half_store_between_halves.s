# A store of a half between two halves.
.svc_limit 100
.svc_entry
    lui x5, 0x100
    sh x1, 1(x5)
.data
    .word 0, 0
