.svc_entry
    li a0, -2147483649
