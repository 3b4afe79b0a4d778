.svc_entry
    lui x1, %lo(8)
