.svc_entry
    slli x1, x1, 32
