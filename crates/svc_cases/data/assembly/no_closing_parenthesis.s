.svc_entry
    lw x1, 0(x2
