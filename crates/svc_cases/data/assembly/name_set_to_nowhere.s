.svc_entry
    ecall
.set here, nowhere
