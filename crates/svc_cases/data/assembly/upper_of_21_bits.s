.svc_entry
    lui x1, 1048576
