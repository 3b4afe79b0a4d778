.svc_version 1
.svc_entry 5
    ecall
