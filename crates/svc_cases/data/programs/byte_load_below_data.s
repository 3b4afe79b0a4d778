# A load of a byte below the data.
.svc_limit 100
.svc_entry
    lui x5, 0x100
    lb x7, -1(x5)
.data
    .word 0, 0
