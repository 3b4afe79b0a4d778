# Upper immediates, jumps and their links, x0, FENCE, and loads and stores at each byte of a word, each of which puts out what
# it comes to.
.svc_limit 200
.svc_register s0, 0x100000
.svc_entry
    li a7, 1
    lui a0, 0x12345
    ecall
    lui a0, 0xfffff
    ecall
    auipc a0, 1
    ecall
    auipc a0, 0xfffff           # wraps
    ecall
    jal a0, over                # the link is the address behind
    li a0, 0
over:
    ecall
    j ahead
behind:
    ecall
    j odd
ahead:
    jal a0, behind
    li a0, 0
odd:
    lw t0, 0(s0)                # the lowest bit of the target is cleared
    jalr a0, 0(t0)
    li a0, 0
odd_target:
    ecall
    lw t0, 4(s0)
    jalr a0, -4(t0)
    li a0, 0
below:
    ecall
    lw t0, 8(s0)
    jalr t0, 0(t0)              # the register is read before it is the link
    li t0, 0
linked:
    mv a0, t0
    ecall
    addi zero, t0, 1            # x0 stays 0
    add a0, zero, zero
    ecall
    li a0, 9
    .word 0xffff8f8f            # FENCE with each field set
    ecall
    li t0, 1
    li t1, 1
    .word 0x00629163            # BNE t0, t1, 2 isn't taken, and its target isn't looked at
    li a0, 10
    ecall
    lb a0, 12(s0)
    ecall
    lb a0, 13(s0)
    ecall
    lb a0, 14(s0)
    ecall
    lb a0, 15(s0)
    ecall
    lbu a0, 12(s0)
    ecall
    lbu a0, 13(s0)
    ecall
    lbu a0, 14(s0)
    ecall
    lbu a0, 15(s0)
    ecall
    lh a0, 12(s0)
    ecall
    lh a0, 14(s0)
    ecall
    lhu a0, 12(s0)
    ecall
    lhu a0, 14(s0)
    ecall
    lw a0, 12(s0)
    ecall
    lw t0, 16(s0)
    lw t1, 20(s0)
    sw t0, 24(s0)
    sb t1, 24(s0)
    lw a0, 24(s0)
    ecall
    sw t0, 24(s0)
    sb t1, 25(s0)
    lw a0, 24(s0)
    ecall
    sw t0, 24(s0)
    sb t1, 26(s0)
    lw a0, 24(s0)
    ecall
    sw t0, 24(s0)
    sb t1, 27(s0)
    lw a0, 24(s0)
    ecall
    sw t0, 24(s0)
    sh t1, 24(s0)
    lw a0, 24(s0)
    ecall
    sw t0, 24(s0)
    sh t1, 26(s0)
    lw a0, 24(s0)
    ecall
    sw t0, 24(s0)
    sw t1, 24(s0)
    lw a0, 24(s0)
    ecall
    li a7, 0
    li a0, 0
    ecall
.data
    .word odd_target + 1, below + 4, linked
    .word 0x80ff7f01            # loaded from
    .word 0xaabbccdd, 0x12345678, 0     # stored over, stored, and where
