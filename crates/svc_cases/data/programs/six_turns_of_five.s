# The second task would take six turns, and may take five.
.svc_limit 5
.svc_entry
    lui x5, 0x100
    addi x1, x0, 5
    sw x1, 0(x5)
.svc_entry
    lui x5, 0x100
    lw x10, 0(x5)
    addi x17, x0, 1
    ecall
    addi x17, x0, 0
    ecall
.data
    .word 0, 0
