.svc_entry
    ecall
.data
    .ascii "\	n"
