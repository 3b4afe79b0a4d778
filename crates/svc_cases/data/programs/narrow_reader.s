# Task 1 first reads word 0 by a byte store, and later loads it; task 0 stores it last. Run first, task 1 is squashed for what
# its byte store read.
    .svc_entry
    .svc_limit 16
    lui t0, 256
    li t1, 5
    sw t1, 0(t0)
    .svc_entry
    .svc_limit 16
    lui t0, 256
    li t1, 7
    sb t1, 1(t0)
    lw a0, 0(t0)
    li a7, 1
    ecall
    li a7, 0
    ecall
    .data
    .word 0
