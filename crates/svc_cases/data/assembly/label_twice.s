.svc_entry
here:
    ecall
here:
    ecall
