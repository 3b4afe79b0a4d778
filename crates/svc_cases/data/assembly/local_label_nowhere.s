.svc_entry
1:  nop
    j 1b
    j 1f
    ecall
