# A histogram of 128 numbers from 0 to 3, by eight tasks, each of which counts sixteen of them. Each task counts in four bins of its own, and four
# tasks add them up.

.svc_limit 1000
.svc_register s0, bins
.svc_register s1, numbers
.svc_register s2, own

.svc_entry
        li a0, 0
        jal count
.svc_entry
        li a0, 1
        jal count
.svc_entry
        li a0, 2
        jal count
.svc_entry
        li a0, 3
        jal count
.svc_entry
        li a0, 4
        jal count
.svc_entry
        li a0, 5
        jal count
.svc_entry
        li a0, 6
        jal count
.svc_entry
        li a0, 7
        jal count
.svc_entry
        li a0, 0
        jal sum
.svc_entry
        li a0, 1
        jal sum
.svc_entry
        li a0, 2
        jal sum
.svc_entry
        li a0, 3
        jal sum

.svc_entry
show:   lw a0, 0(s0)
        li a7, 1
        ecall
        lw a0, 4(s0)
        ecall
        lw a0, 8(s0)
        ecall
        lw a0, 12(s0)
        ecall
        li a7, 0
        ecall

# Counts block a0 in its own bins, the four words from s2 + 16 * a0 on.
count:  slli t0, a0, 4
        add s2, s2, t0
        add t0, t0, s1
        addi t1, t0, 16
next:   lbu t2, 0(t0)
        slli t2, t2, 2
        add t2, t2, s2
        lw t3, 0(t2)
        addi t3, t3, 1
        sw t3, 0(t2)
        addi t0, t0, 1
        bne t0, t1, next
        ret

# Adds up bin a0 of all tasks.
sum:    slli a0, a0, 2
        add s0, s0, a0
        add s2, s2, a0
        addi t1, s2, 128
        li t0, 0
more:   lw t2, 0(s2)
        add t0, t0, t2
        addi s2, s2, 16
        bne s2, t1, more
        sw t0, 0(s0)
        ret

.data
numbers: .byte 0, 2, 0, 2, 3, 1, 2, 2, 1, 1, 1, 3, 2, 2, 1, 2
         .byte 1, 2, 2, 0, 0, 3, 3, 2, 1, 0, 3, 1, 2, 2, 1, 2
         .byte 2, 2, 0, 3, 3, 0, 0, 0, 3, 2, 0, 1, 2, 2, 2, 0
         .byte 2, 1, 1, 3, 1, 3, 1, 2, 2, 3, 0, 2, 1, 2, 1, 0
         .byte 0, 1, 0, 0, 2, 3, 0, 1, 0, 0, 0, 1, 2, 0, 0, 1
         .byte 3, 1, 3, 3, 0, 0, 1, 0, 0, 1, 2, 3, 1, 1, 1, 3
         .byte 1, 1, 2, 0, 0, 0, 2, 3, 2, 1, 1, 3, 0, 2, 1, 0
         .byte 3, 3, 0, 1, 2, 2, 3, 1, 0, 0, 0, 3, 1, 3, 2, 2
bins:    .zero 16
own:     .zero 128
