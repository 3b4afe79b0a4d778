.svc_entry
    addi x1, y2, 3
