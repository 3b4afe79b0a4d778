# The data up to the mark in .data is read-only: the whole of .rodata, which comes first in the image, and the first word of .data.
.svc_entry 5
    ecall
.data
    .word 3
.svc_readonly
    .word 4
.rodata
    .word 1
    .byte 2
