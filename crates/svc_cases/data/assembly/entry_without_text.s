.data
.svc_entry
    .word 1