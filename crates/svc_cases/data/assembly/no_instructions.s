# Words that are no instruction of RV32I: what assemblers write for other extensions, words that differ from an instruction
# in one field, and what the manual reserves.
.svc_entry
    nop
    .word 0x0000100f    # fence.i
    .word 0x300110f3    # csrrw x1,mstatus,x2
    .word 0x300fd073    # csrrwi x0,mstatus,31
    .word 0xc00020f3    # csrrs x1,cycle,x0
    .word 0x30200073    # mret
    .word 0x10500073    # wfi
    .word 0x12000073    # sfence.vma x0,x0
    .word 0x023100b3    # mul x1,x2,x3
    .word 0x023130b3    # mulhu x1,x2,x3
    .word 0x023140b3    # div x1,x2,x3
    .word 0x023170b3    # remu x1,x2,x3
    .word 0x100120af    # lr.w x1,(x2)
    .word 0x183120af    # sc.w x1,x3,(x2)
    .word 0x003120af    # amoadd.w x1,x3,(x2)
    .word 0x00012087    # flw f1,0(x2)
    .word 0x00112027    # fsw f1,0(x2)
    .word 0x00013087    # fld f1,0(x2)
    .word 0x003170d3    # fadd.s f1,f2,f3
    .word 0x223170c3    # fmadd.d f1,f2,f3,f4
    .word 0x00013083    # ld x1,0(x2)
    .word 0x00016083    # lwu x1,0(x2)
    .word 0x00113023    # sd x1,0(x2)
    .word 0x0031009b    # addiw x1,x2,3
    .word 0x0031109b    # slliw x1,x2,3
    .word 0x003100bb    # addw x1,x2,x3
    .word 0x403100bb    # subw x1,x2,x3
    .word 0x02011093    # slli x1,x2,32
    .word 0x02115093    # srli x1,x2,33
    .word 0x43f15093    # srai x1,x2,63
    .word 0x203120b3    # sh1add x1,x2,x3
    .word 0x403170b3    # andn x1,x2,x3
    .word 0x603110b3    # rol x1,x2,x3
    .word 0x60315093    # rori x1,x2,3
    .word 0x60011093    # clz x1,x2
    .word 0x28311093    # bseti x1,x2,3
    .word 0x080140b3    # zext.h x1,x2
    .word 0x0a3140b3    # min x1,x2,x3
    .word 0x003110e7    # jalr with funct3 1
    .word 0x003120e7    # jalr with funct3 2
    .word 0x003130e7    # jalr with funct3 3
    .word 0x003140e7    # jalr with funct3 4
    .word 0x003150e7    # jalr with funct3 5
    .word 0x003160e7    # jalr with funct3 6
    .word 0x003170e7    # jalr with funct3 7
    .word 0x0020a463    # branch with funct3 2
    .word 0x0020b463    # branch with funct3 3
    .word 0x00313083    # load with funct3 3
    .word 0x00316083    # load with funct3 6
    .word 0x00317083    # load with funct3 7
    .word 0x001131a3    # store with funct3 3
    .word 0x001141a3    # store with funct3 4
    .word 0x001151a3    # store with funct3 5
    .word 0x001161a3    # store with funct3 6
    .word 0x001171a3    # store with funct3 7
    .word 0x02311093    # slli with funct7 1
    .word 0x04311093    # slli with funct7 2
    .word 0x08311093    # slli with funct7 4
    .word 0x10311093    # slli with funct7 8
    .word 0x20311093    # slli with funct7 16
    .word 0x80311093    # slli with funct7 64
    .word 0xc0311093    # slli with funct7 96
    .word 0x42311093    # slli with funct7 33
    .word 0xfe311093    # slli with funct7 127
    .word 0x40311093    # slli with funct7 32
    .word 0x02315093    # srli with funct7 1
    .word 0x04315093    # srli with funct7 2
    .word 0x08315093    # srli with funct7 4
    .word 0x10315093    # srli with funct7 8
    .word 0x20315093    # srli with funct7 16
    .word 0x80315093    # srli with funct7 64
    .word 0xc0315093    # srli with funct7 96
    .word 0x42315093    # srli with funct7 33
    .word 0xfe315093    # srli with funct7 127
    .word 0x043100b3    # add with funct7 2
    .word 0x083100b3    # add with funct7 4
    .word 0x103100b3    # add with funct7 8
    .word 0x203100b3    # add with funct7 16
    .word 0x803100b3    # add with funct7 64
    .word 0xc03100b3    # add with funct7 96
    .word 0x423100b3    # add with funct7 33
    .word 0xfe3100b3    # add with funct7 127
    .word 0x403110b3    # funct3 1 of registers with funct7 32
    .word 0x403120b3    # funct3 2 of registers with funct7 32
    .word 0x403130b3    # funct3 3 of registers with funct7 32
    .word 0x403140b3    # funct3 4 of registers with funct7 32
    .word 0x403160b3    # funct3 6 of registers with funct7 32
    .word 0x0000200f    # fence with funct3 2
    .word 0x0000300f    # fence with funct3 3
    .word 0x0000400f    # fence with funct3 4
    .word 0x0000500f    # fence with funct3 5
    .word 0x0000600f    # fence with funct3 6
    .word 0x0000700f    # fence with funct3 7
    .word 0x000000f3    # ecall with rd 1
    .word 0x00008073    # ecall with rs1 1
    .word 0x00200073    # ecall with immediate 2
    .word 0x02000073    # ecall with funct7 1
    .word 0x80000073    # ecall with immediate -2048
    .word 0x001000f3    # ebreak with rd 1
    .word 0x00108073    # ebreak with rs1 1
    .word 0x00004073    # ecall with funct3 4
    .word 0x00000000    # all bits clear
    .word 0xffffffff    # all bits set
    .word 0x00500092    # addi with bit 0 clear
    .word 0x00500091    # addi with bit 1 clear
    .word 0x0050009f    # an opcode of 48 bits
    .word 0x0000007f    # an opcode of 80 bits and more
    .word 0x0000000b    # custom-0
    .word 0x0000005b    # custom-2/rv128
    .word 0x0000006b    # reserved
    .word 0x00000057    # vector
.data
.word 0
