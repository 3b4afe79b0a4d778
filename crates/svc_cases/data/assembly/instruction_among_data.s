.svc_entry
    ecall
.data
    nop
