# Twelve tasks, of which each adds to the word that the third one before it has stored. It loads the word at once, and stores it some
# turns later: so on more than three units it may load too early, and on three it never does.

.svc_limit 100
.svc_register s0, first
.svc_register s1, second
.svc_register s2, third

.svc_entry
        lw t0, 0(s0)
        addi t0, t0, 1
        mv t1, t0
        mv t2, t1
        sw t2, 0(s0)

.svc_entry
        lw t0, 0(s1)
        addi t0, t0, 2
        mv t1, t0
        mv t2, t1
        sw t2, 0(s1)

.svc_entry
        lw t0, 0(s2)
        addi t0, t0, 3
        mv t1, t0
        mv t2, t1
        sw t2, 0(s2)

.svc_entry
        lw t0, 0(s0)
        addi t0, t0, 4
        mv t1, t0
        mv t2, t1
        sw t2, 0(s0)

.svc_entry
        lw t0, 0(s1)
        addi t0, t0, 5
        mv t1, t0
        mv t2, t1
        sw t2, 0(s1)

.svc_entry
        lw t0, 0(s2)
        addi t0, t0, 6
        mv t1, t0
        mv t2, t1
        sw t2, 0(s2)

.svc_entry
        lw t0, 0(s0)
        addi t0, t0, 7
        mv t1, t0
        mv t2, t1
        sw t2, 0(s0)

.svc_entry
        lw t0, 0(s1)
        addi t0, t0, 8
        mv t1, t0
        mv t2, t1
        sw t2, 0(s1)

.svc_entry
        lw t0, 0(s2)
        addi t0, t0, 9
        mv t1, t0
        mv t2, t1
        sw t2, 0(s2)

.svc_entry
        lw t0, 0(s0)
        addi t0, t0, 10
        mv t1, t0
        mv t2, t1
        sw t2, 0(s0)

.svc_entry
        lw t0, 0(s1)
        addi t0, t0, 11
        mv t1, t0
        mv t2, t1
        sw t2, 0(s1)

.svc_entry
        lw t0, 0(s2)
        addi t0, t0, 12
        mv t1, t0
        mv t2, t1
        sw t2, 0(s2)
        mv a0, t2
        addi a7, zero, 1
        ecall                   # puts out 30
        mv a0, zero
        mv a7, zero
        ecall                   # exits with 0

.data
first:  .word 0
second: .word 0
third:  .word 0
