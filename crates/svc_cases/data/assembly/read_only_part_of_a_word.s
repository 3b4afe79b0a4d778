.svc_entry
    ecall
.data
    .half 1
.svc_readonly
