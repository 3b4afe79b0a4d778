.svc_entry
    ecall
    .zero 2
