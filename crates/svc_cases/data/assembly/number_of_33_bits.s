.svc_entry
    li a0, 4294967296
