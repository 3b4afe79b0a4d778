# A set that is full. Each cache has one line alone, and the tasks use two words.
#
#   svcsim assemble full_set.s full_set.svci
#   svcsim run full_set.svci --units 2 --sets 1 --ways 1 --schedule rotate --trace full_set.csv
#
# The first task is the oldest: it may let its line go, though it has stored there, and the version is kept until its commit
# (spilled). The second one has loaded and isn't the oldest, so its line is pinned: it waits until the first is committed.
# See the rows of replace in the trace.

.svc_limit 100
.svc_register s0, left          # each task begins with the first word's address here

.svc_entry
store:  addi t0, zero, 3
        sw t0, 0(s0)
        addi t0, zero, 4
        sw t0, 4(s0)

.svc_entry
add:    lw t0, 0(s0)
        lw t1, 4(s0)
        add a0, t0, t1
        addi a7, zero, 1
        ecall                   # puts out 7
        mv a7, zero
        ecall                   # exits with 7

.data
left:   .word 0
right:  .word 0
