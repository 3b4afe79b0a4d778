.svc_entry
    nop [0m
    ecall
