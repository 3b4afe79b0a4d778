.svc_entry
    ecall
    .rodata
    .zero 196612
    .data
    .word 1
    .align 16
