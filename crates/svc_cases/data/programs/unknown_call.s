# A call of no service.
.svc_limit 100
.svc_entry
    lui x5, 0x100
    addi x17, x0, 2
    ecall
.data
    .word 0, 0
