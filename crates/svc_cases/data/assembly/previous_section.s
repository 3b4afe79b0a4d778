.svc_entry
    ecall
    .section .debug_line,"",@progbits
    .frob 1
    .previous
