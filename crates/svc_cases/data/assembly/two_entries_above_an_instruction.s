.svc_entry
here:
.svc_entry
    ecall
