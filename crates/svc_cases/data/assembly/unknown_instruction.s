.svc_entry
    frobnicate x1, x2
