.svc_register a0, nowhere
.svc_entry
    ecall
