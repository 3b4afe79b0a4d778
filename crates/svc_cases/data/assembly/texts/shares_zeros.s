# Its zeros, as the other text's of this name, are the greater ones of both.
.svc_entry
        la a0, shared
        la a1, own
        li a7, 0
        ecall
.comm shared, 4
.lcomm own, 4
