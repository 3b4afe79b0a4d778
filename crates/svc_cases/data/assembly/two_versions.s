.svc_version 1
.svc_version 2
.svc_entry
    ecall
