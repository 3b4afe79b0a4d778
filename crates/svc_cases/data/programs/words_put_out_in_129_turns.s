# Words put out until the turns are spent: 64 of them.
.svc_limit 129
.svc_entry
    addi x17, x0, 1
    ecall
    j . - 4
.data
    .word 0, 0
