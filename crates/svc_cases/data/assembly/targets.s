# Targets of branches and jumps: a label and a number.
.svc_entry
    j start + 4
first:
    nop
    nop
start:
    addi a0, zero, 1
    addi a0, a0, 1
    beq a0, a1, start+4
    bne a0, a1, first - 4
    blt a0, a1, last + 0x8
    jal ra, last-4
    jal first + 4
    bltz a0, . + 8
    bgeu a0, a1, .-4
    call first + 4
    tail last + 4
    j .
    j 8
    beqz a0, far - 4096
last:
    nop
    ecall
    ecall
    .word 0
.data
    .word first + 4, last - 4
.set far, last + 4100
