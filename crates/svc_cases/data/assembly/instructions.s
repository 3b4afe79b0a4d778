# Each instruction but FENCE, with registers, immediates and offsets at their edges.
.svc_entry
lui x16, 0
lui x27, 1
lui x6, 524287
lui x17, 524288
lui x28, 1048575
lui x7, 74565
auipc x18, 0
auipc x29, 1
auipc x8, 524287
auipc x19, 524288
auipc x30, 1048575
auipc x9, 74565
addi x9, x20, 0
addi x31, x10, 1
addi x21, x0, -1
addi x11, x22, 2047
addi x1, x12, -2048
slti x23, x2, 0
slti x13, x24, 1
slti x3, x14, -1
slti x25, x4, 2047
slti x15, x26, -2048
sltiu x5, x16, 0
sltiu x27, x6, 1
sltiu x17, x28, -1
sltiu x7, x18, 2047
sltiu x29, x8, -2048
xori x19, x30, 0
xori x9, x20, 1
xori x31, x10, -1
xori x21, x0, 2047
xori x11, x22, -2048
ori x1, x12, 0
ori x23, x2, 1
ori x13, x24, -1
ori x3, x14, 2047
ori x25, x4, -2048
andi x15, x26, 0
andi x5, x16, 1
andi x27, x6, -1
andi x17, x28, 2047
andi x7, x18, -2048
slli x29, x8, 0
slli x19, x30, 1
slli x9, x20, 16
slli x31, x10, 31
srli x21, x0, 0
srli x11, x22, 1
srli x1, x12, 16
srli x23, x2, 31
srai x13, x24, 0
srai x3, x14, 1
srai x25, x4, 16
srai x15, x26, 31
add x0, x31, x15
add x31, x0, x16
add x5, x16, x27
sub x0, x31, x15
sub x31, x0, x16
sub x6, x17, x28
sll x0, x31, x15
sll x31, x0, x16
sll x7, x18, x29
slt x0, x31, x15
slt x31, x0, x16
slt x8, x19, x30
sltu x0, x31, x15
sltu x31, x0, x16
sltu x9, x20, x31
xor x0, x31, x15
xor x31, x0, x16
xor x10, x21, x0
srl x0, x31, x15
srl x31, x0, x16
srl x11, x22, x1
sra x0, x31, x15
sra x31, x0, x16
sra x12, x23, x2
or x0, x31, x15
or x31, x0, x16
or x13, x24, x3
and x0, x31, x15
and x31, x0, x16
and x14, x25, x4
jal x20, . + 0
jal x31, . + 2
jal x10, . - 2
jal x21, . + 2046
jal x0, . + 2048
jal x11, . - 2048
jal x22, . + 4094
jal x1, . + 4096
jal x12, . - 4096
jal x23, . + 1048574
jal x2, . - 1048576
jal x13, . + 349524
jal x24, . - 349526
jalr x3, 0(x14)
jalr x25, 1(x4)
jalr x15, -1(x26)
jalr x5, 2047(x16)
jalr x27, -2048(x6)
beq x17, x28, . + 2
beq x7, x18, . - 2
beq x29, x8, . + 30
beq x19, x30, . + 32
beq x9, x20, . + 2046
beq x31, x10, . + 2048
beq x21, x0, . - 2048
beq x11, x22, . + 4094
beq x1, x12, . - 4096
bne x23, x2, . + 2
bne x13, x24, . - 2
bne x3, x14, . + 30
bne x25, x4, . + 32
bne x15, x26, . + 2046
bne x5, x16, . + 2048
bne x27, x6, . - 2048
bne x17, x28, . + 4094
bne x7, x18, . - 4096
blt x29, x8, . + 2
blt x19, x30, . - 2
blt x9, x20, . + 30
blt x31, x10, . + 32
blt x21, x0, . + 2046
blt x11, x22, . + 2048
blt x1, x12, . - 2048
blt x23, x2, . + 4094
blt x13, x24, . - 4096
bge x3, x14, . + 2
bge x25, x4, . - 2
bge x15, x26, . + 30
bge x5, x16, . + 32
bge x27, x6, . + 2046
bge x17, x28, . + 2048
bge x7, x18, . - 2048
bge x29, x8, . + 4094
bge x19, x30, . - 4096
bltu x9, x20, . + 2
bltu x31, x10, . - 2
bltu x21, x0, . + 30
bltu x11, x22, . + 32
bltu x1, x12, . + 2046
bltu x23, x2, . + 2048
bltu x13, x24, . - 2048
bltu x3, x14, . + 4094
bltu x25, x4, . - 4096
bgeu x15, x26, . + 2
bgeu x5, x16, . - 2
bgeu x27, x6, . + 30
bgeu x17, x28, . + 32
bgeu x7, x18, . + 2046
bgeu x29, x8, . + 2048
bgeu x19, x30, . - 2048
bgeu x9, x20, . + 4094
bgeu x31, x10, . - 4096
lb x21, 0(x0)
lb x11, 1(x22)
lb x1, -1(x12)
lb x23, 2047(x2)
lb x13, -2048(x24)
lh x3, 0(x14)
lh x25, 1(x4)
lh x15, -1(x26)
lh x5, 2047(x16)
lh x27, -2048(x6)
lw x17, 0(x28)
lw x7, 1(x18)
lw x29, -1(x8)
lw x19, 2047(x30)
lw x9, -2048(x20)
lbu x31, 0(x10)
lbu x21, 1(x0)
lbu x11, -1(x22)
lbu x1, 2047(x12)
lbu x23, -2048(x2)
lhu x13, 0(x24)
lhu x3, 1(x14)
lhu x25, -1(x4)
lhu x15, 2047(x26)
lhu x5, -2048(x16)
sb x27, 0(x6)
sb x17, 1(x28)
sb x7, -1(x18)
sb x29, 2047(x8)
sb x19, -2048(x30)
sb x9, 31(x20)
sb x31, 32(x10)
sh x21, 0(x0)
sh x11, 1(x22)
sh x1, -1(x12)
sh x23, 2047(x2)
sh x13, -2048(x24)
sh x3, 31(x14)
sh x25, 32(x4)
sw x15, 0(x26)
sw x5, 1(x16)
sw x27, -1(x6)
sw x17, 2047(x28)
sw x7, -2048(x18)
sw x29, 31(x8)
sw x19, 32(x30)
ecall
ebreak
sub x1, x2, x3
srai x1, x2, 3
beq x0, x0, . - 4
jal x1, . + 8
lui x5, 256
addi x1, x0, 5
addi x1, x0, 6
sw x1, 0(x5)
sw x1, 2(x5)
sw x1, 8(x5)
sw x1, 10(x5)
lw x10, 0(x5)
addi x17, x0, 1
addi x17, x0, 0
addi x17, x0, 2
sb x1, 0(x5)
lbu x10, 1(x5)
lbu x10, 4(x5)
jal x0, . + 2
jal x0, . + 1024
jal x0, . - 4
jal x0, . - 8
jal x0, . + 0
.data
.word 0
