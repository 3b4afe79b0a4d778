# The first task, of three turns, may take 3, the second, of six, 65536.
.svc_version 2
.svc_entry 3
    lui x5, 0x100
    addi x1, x0, 5
    sw x1, 0(x5)
.svc_entry 65536
    lui x5, 0x100
    lw x10, 0(x5)
    addi x17, x0, 1
    ecall
    addi x17, x0, 0
    ecall
.data
    .word 0, 0
