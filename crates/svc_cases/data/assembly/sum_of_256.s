.svc_entry
    ecall
.data
    .byte 200 + 8 * 7
