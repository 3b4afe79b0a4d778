.set one, two
.set two, one
.svc_entry
    ecall
