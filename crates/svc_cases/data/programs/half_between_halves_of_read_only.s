# The first task stores a half between two halves of a read-only word.
.svc_version 2
.svc_entry 3
    lui x5, 0x100
    addi x1, x0, 5
    sh x1, 1(x5)
.svc_entry 6
    lui x5, 0x100
    lw x10, 0(x5)
    addi x17, x0, 1
    ecall
    addi x17, x0, 0
    ecall
.data
    .word 0
.svc_readonly
    .word 0
