# A store between two words and past the data: what is told is that it is misaligned.
.svc_limit 100
.svc_entry
    lui x5, 0x100
    addi x1, x0, 5
    sw x1, 10(x5)
.data
    .word 0, 0
