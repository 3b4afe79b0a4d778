# The first task stays where it is after two turns.
.svc_limit 100
.svc_entry
    lui x5, 0x100
    addi x1, x0, 5
    j .
.svc_entry
    lui x5, 0x100
    lw x10, 0(x5)
    addi x17, x0, 1
    ecall
    addi x17, x0, 0
    ecall
.data
    .word 0, 0
