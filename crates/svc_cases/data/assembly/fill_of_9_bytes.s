.svc_entry
    ecall
    .data
    .fill 1, 9, 1
