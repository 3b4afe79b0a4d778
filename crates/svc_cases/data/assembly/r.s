# As p.s, but a byte is stored, and the byte beside it is loaded.
.svc_limit 100
.svc_entry
lui x5, 256
addi x1, x0, 5
sb x1, 0(x5)
.svc_entry
lui x5, 256
lbu x10, 1(x5)
addi x17, x0, 1
ecall
addi x17, x0, 0
ecall
.data
.word 0
.word 0
