.svc_entry
        la a2, shared
        la a3, own
        li a7, 0
        ecall
.comm shared, 12, 8
.local own
.comm own, 4
