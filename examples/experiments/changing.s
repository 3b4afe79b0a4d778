# A walk over 24 steps. Each task takes one step and reads from a table which of two tasks is next: 0 even, 1 odd, 2 the end. Here
# the same kind follows every other time.

.svc_limit 100
.svc_register s0, place
.svc_register s1, steps

.svc_entry
even:   lw t0, 0(s0)        # the place in the table
        addi t1, t0, 1
        sw t1, 0(s0)
        add t1, t0, s1
        lbu t1, 0(t1)       # which task is next
        beqz t1, even
        addi t1, t1, -1
        beqz t1, odd
        j done

.svc_entry
odd:    lw t0, 0(s0)
        addi t1, t0, 1
        sw t1, 0(s0)
        add t1, t0, s1
        lbu t1, 0(t1)
        beqz t1, even
        addi t1, t1, -1
        beqz t1, odd
        j done

.svc_entry
done:   lw a0, 0(s0)
        li a7, 0
        ecall               # exits with how many steps were taken

.data
place:  .word 0
steps:  .byte 0, 1, 1, 0, 0, 1, 1, 0, 0, 1, 1, 0, 0, 1, 1, 0, 0, 1, 1, 0, 0, 1, 1, 2
