.svc_register x0, 1
.svc_entry
    ecall
