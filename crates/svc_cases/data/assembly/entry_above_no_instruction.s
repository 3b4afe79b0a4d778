.svc_entry
    ecall
.svc_entry
