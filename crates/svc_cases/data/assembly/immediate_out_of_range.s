.svc_entry
    addi x1, x2, 2048
