# Eight tasks, one for each column of a matrix of 8 times 8 words. A column's words are 8 words apart.

.svc_limit 1000
.svc_register s0, matrix
.svc_register s1, sums

.svc_entry
        li a0, 0
        jal line
.svc_entry
        li a0, 1
        jal line
.svc_entry
        li a0, 2
        jal line
.svc_entry
        li a0, 3
        jal line
.svc_entry
        li a0, 4
        jal line
.svc_entry
        li a0, 5
        jal line
.svc_entry
        li a0, 6
        jal line
.svc_entry
        li a0, 7
        jal line
.svc_entry
        lw a0, 28(s1)           # the last sum
        li a7, 0
        ecall

# Doubles the eight words of column a0, then adds them up into a sum of its own.
line:   slli t0, a0, 2
        add s1, s1, t0
        slli t0, a0, 2
        add t0, t0, s0
        mv t1, t0
        li t2, 8
double: lw t3, 0(t1)
        add t3, t3, t3
        sw t3, 0(t1)
        addi t1, t1, 32
        addi t2, t2, -1
        bnez t2, double
        li t2, 8
        li t3, 0
add:    lw t4, 0(t0)
        add t3, t3, t4
        addi t0, t0, 32
        addi t2, t2, -1
        bnez t2, add
        sw t3, 0(s1)
        ret

.data
matrix: .word 0, 1, 2, 3, 4, 5, 6, 7
        .word 8, 9, 10, 11, 12, 13, 14, 15
        .word 16, 17, 18, 19, 20, 21, 22, 23
        .word 24, 25, 26, 27, 28, 29, 30, 31
        .word 32, 33, 34, 35, 36, 37, 38, 39
        .word 40, 41, 42, 43, 44, 45, 46, 47
        .word 48, 49, 50, 51, 52, 53, 54, 55
        .word 56, 57, 58, 59, 60, 61, 62, 63
sums:   .zero 32
