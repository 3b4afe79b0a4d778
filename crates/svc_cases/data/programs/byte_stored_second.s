# The second task stores a byte of the word that the first stores.
.svc_limit 100
.svc_entry
    lui x5, 0x100
    addi x1, x0, 5
    sw x1, 0(x5)
.svc_entry
    lui x5, 0x100
    sb x1, 0(x5)
    addi x17, x0, 1
    ecall
    addi x17, x0, 0
    ecall
.data
    .word 0, 0
