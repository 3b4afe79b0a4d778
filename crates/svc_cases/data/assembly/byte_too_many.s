.svc_entry
    ecall
.data
    .zero 262144
    .byte 1
