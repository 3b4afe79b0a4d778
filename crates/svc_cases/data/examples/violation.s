# A load that comes too early. The second task loads the word before the first one has stored it: the store finds that out,
# squashes the task, and it begins again.
#
#   svcsim assemble violation.s violation.svci
#   svcsim run violation.svci --units 2 --schedule youngest --trace violation.csv
#
# By youngest, the later task always goes first. See the store's row in the trace: its cause is violation.

.svc_limit 100
.svc_register s0, word          # each task begins with the word's address here

.svc_entry
store:  addi t0, zero, 7
        sw t0, 0(s0)

.svc_entry
load:   lw a0, 0(s0)
        addi a7, zero, 1
        ecall                   # puts out 7
        mv a7, zero
        ecall                   # exits with 7

.data
word:   .word 0
