.svc_entry
    ecall extra
