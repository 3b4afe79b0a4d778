# Words put out in one turn more: there is no room for the 65th.
.svc_limit 130
.svc_entry
    addi x17, x0, 1
    ecall
    j . - 4
.data
    .word 0, 0
