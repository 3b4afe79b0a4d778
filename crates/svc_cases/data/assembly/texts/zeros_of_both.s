# The two texts that share zeros, as one: the zeros of both stand where the first text names them.
.svc_entry
        la a0, shared
        la a1, own_0
        li a7, 0
        ecall
.svc_entry
        la a2, shared
        la a3, own_1
        li a7, 0
        ecall
.bss
.align 3
shared: .zero 12
own_0:  .zero 4
own_1:  .zero 4
