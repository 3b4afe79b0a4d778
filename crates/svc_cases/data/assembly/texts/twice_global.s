.svc_entry
        .globl task, other
task:   nop
other:  ecall
