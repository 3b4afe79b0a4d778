# Numbers of each base in the directives of version 2.
.svc_limit 012
.svc_entry
    nop
.svc_entry 0x10
    ecall
.data
.word 0b101
.svc_readonly
.word 6
