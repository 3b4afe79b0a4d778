.svc_limit ten
.svc_entry
    ecall
