# A store of a byte or a half loads its word, so the task needs it; a store of a word doesn't. Each of these tasks but the first and
# the fourth needs the word of the one before it, and none needs the word that the fourth overwrites.

.svc_limit 100
.svc_register s0, word

.svc_entry
        addi t0, zero, -1
        sw t0, 0(s0)

.svc_entry
        addi t0, zero, 5
        sb t0, 1(s0)            # needs the word of the first task

.svc_entry
        addi t0, zero, 6
        sh t0, 2(s0)            # needs that of the second

.svc_entry
        addi t0, zero, 7
        sw t0, 0(s0)            # needs nothing
        sb zero, 3(s0)          # nor does this: the task has stored the word itself

.svc_entry
        lbu a0, 0(s0)           # needs that of the fourth
        mv a7, zero
        ecall                   # exits with 7

.data
word:   .word 0
