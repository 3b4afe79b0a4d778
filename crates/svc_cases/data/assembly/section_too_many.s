.svc_entry
    ecall
.bss
    .zero 1
.rodata
    .zero 1
.data
    .zero 262137
