.svc_entry
    beq x0, x0, nowhere
