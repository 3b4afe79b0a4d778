.svc_entry
    ecall
.data
    .zero 262143
    .ascii "a b"
