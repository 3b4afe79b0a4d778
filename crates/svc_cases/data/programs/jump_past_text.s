# A jump past the text: the fetch there traps.
.svc_limit 100
.svc_entry
    lui x5, 0x100
    j . + 0x400
.data
    .word 0, 0
