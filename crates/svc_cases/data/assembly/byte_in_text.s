.svc_entry
    ecall
    .byte 1
