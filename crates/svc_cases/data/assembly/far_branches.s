# Branches that don't reach their targets are the opposite ones over a jump, and those that do stay one instruction.
.svc_entry
start:
    beq a0, a1, below
    bnez a2, below          # 4088 bytes, once the branch above is two instructions
    bgtu a3, a4, last
    ble a3, a4, 1f
    blez a5, start
1:  bltu a6, a7, . + 5000
    bgez a6, . - 8
    .align 12
below:
    beqz a0, start
    blt a1, a2, below
    bgeu a3, a4, 1b
    bne a0, a1, here - 4096
here:
    la t0, last
    bgt a1, a2, table
    j start
    .align 12
last:
    bltz a0, below
    bgtz a0, below - 4
    ecall
    .align 12
.data
table:
    .word below, last, here - below
