# A histogram of 128 numbers from 0 to 3, by eight tasks, each of which counts sixteen of them. All tasks count in the same four bins.

.svc_limit 1000
.svc_register s0, bins
.svc_register s1, numbers

.svc_entry
        li a0, 0
        jal count
.svc_entry
        li a0, 1
        jal count
.svc_entry
        li a0, 2
        jal count
.svc_entry
        li a0, 3
        jal count
.svc_entry
        li a0, 4
        jal count
.svc_entry
        li a0, 5
        jal count
.svc_entry
        li a0, 6
        jal count
.svc_entry
        li a0, 7
        jal count

.svc_entry
show:   lw a0, 0(s0)
        li a7, 1
        ecall
        lw a0, 4(s0)
        ecall
        lw a0, 8(s0)
        ecall
        lw a0, 12(s0)
        ecall
        li a7, 0
        ecall

# Counts block a0 in the bins at s0.
count:  slli t0, a0, 4
        add t0, t0, s1
        addi t1, t0, 16
next:   lbu t2, 0(t0)
        slli t2, t2, 2
        add t2, t2, s0
        lw t3, 0(t2)
        addi t3, t3, 1
        sw t3, 0(t2)
        addi t0, t0, 1
        bne t0, t1, next
        ret

.data
numbers: .byte 0, 2, 0, 2, 3, 1, 2, 2, 1, 1, 1, 3, 2, 2, 1, 2
         .byte 1, 2, 2, 0, 0, 3, 3, 2, 1, 0, 3, 1, 2, 2, 1, 2
         .byte 2, 2, 0, 3, 3, 0, 0, 0, 3, 2, 0, 1, 2, 2, 2, 0
         .byte 2, 1, 1, 3, 1, 3, 1, 2, 2, 3, 0, 2, 1, 2, 1, 0
         .byte 0, 1, 0, 0, 2, 3, 0, 1, 0, 0, 0, 1, 2, 0, 0, 1
         .byte 3, 1, 3, 3, 0, 0, 1, 0, 0, 1, 2, 3, 1, 1, 1, 3
         .byte 1, 1, 2, 0, 0, 0, 2, 3, 2, 1, 1, 3, 0, 2, 1, 0
         .byte 3, 3, 0, 1, 2, 2, 3, 1, 0, 0, 0, 3, 1, 3, 2, 2
bins:    .zero 16
