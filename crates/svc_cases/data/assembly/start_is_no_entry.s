.svc_entry
    ecall
.svc_start 8
