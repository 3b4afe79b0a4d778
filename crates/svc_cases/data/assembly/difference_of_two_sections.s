.svc_entry
here:
    ecall
.data
there:
    .word 1
.set far, there - here
