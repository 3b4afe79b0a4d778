.svc_entry
    ecall
    .balign 6
