.svc_entry
    lw a0, 8
