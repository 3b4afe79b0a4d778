.set here, 4
.set here, 8
.svc_entry
    ecall
