.svc_entry
    .frobnicate 1
