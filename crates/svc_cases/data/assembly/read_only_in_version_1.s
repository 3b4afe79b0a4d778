.svc_version 1
.svc_entry
    ecall
.data
    .word 1
.svc_readonly
