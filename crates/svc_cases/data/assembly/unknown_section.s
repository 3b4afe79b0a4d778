.svc_entry
.section .tdata,"awT",@progbits
 ecall
