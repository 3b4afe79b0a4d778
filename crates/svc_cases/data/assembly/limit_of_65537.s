.svc_entry 65537
    ecall
