.svc_limit 0
.svc_entry
    ecall
