.set far, 1048588
.svc_entry
    nop
    beqz a0, far
