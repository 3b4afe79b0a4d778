.svc_entry
    fence wr, rw
