# A shift whose upper field is of no shift.
.svc_limit 100
.svc_entry
    lui x5, 0x100
    .word 0x02029393
.data
    .word 0, 0
