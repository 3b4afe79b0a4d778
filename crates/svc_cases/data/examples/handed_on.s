# A version that is handed on. The second task loads what the first one has stored, though the first isn't committed yet.
#
#   svcsim assemble handed_on.s handed_on.svci
#   svcsim run handed_on.svci --units 2 --schedule rotate --trace handed_on.csv
#
# By rotate the units move in turn, so the store comes first. See the first load's row in the trace: it is served by a version,
# from unit 0. The third task's load is served by a committed one: by then the second task is committed.

.svc_limit 100
.svc_register s0, first         # each task begins with the first word's address here

.svc_entry
make:   addi t0, zero, 6
        sw t0, 0(s0)

.svc_entry
double: lw t0, 0(s0)
        add t0, t0, t0
        sw t0, 4(s0)

.svc_entry
show:   lw a0, 4(s0)
        addi a7, zero, 1
        ecall                   # puts out 12
        mv a7, zero
        ecall                   # exits with 12

.data
first:  .word 0
second: .word 0
