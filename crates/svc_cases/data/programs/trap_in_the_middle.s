# Five tasks, of which the third breaks after it has loaded the second one's word and before it stores to it: the other two never run.

.svc_limit 100
.svc_register s0, word

.svc_entry
        addi t0, zero, 1
        sw t0, 0(s0)

.svc_entry
        lw t0, 0(s0)
        sw t0, 4(s0)

.svc_entry
        lw t0, 4(s0)
        ebreak
        sw t0, 0(s0)

.svc_entry
        lw t0, 0(s0)

.svc_entry
        mv a7, zero
        ecall

.data
word:   .word 0
        .word 0
