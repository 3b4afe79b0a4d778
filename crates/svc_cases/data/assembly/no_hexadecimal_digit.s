.svc_entry
    ecall
    .data
    .ascii "a\xg"
