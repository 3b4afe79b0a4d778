# The text of labels.s without a label.
.svc_start 0
.svc_register x10, 0x100004
.svc_entry
addi x11, x0, 3
addi x11, x11, -1
beq x11, x0, . + 8
jal x0, . - 8
ecall
.data
.word 7
.word 0
.word 0x100004
