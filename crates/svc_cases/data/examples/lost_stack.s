# A stack that is lost. Registers don't pass from task to task, the stack's pointer neither: the start code of the first task sets
# it once, as on a processor without tasks, and the second task begins with the image's registers, which have 0 there.
#
#   svcsim assemble lost_stack.s lost_stack.svci
#   svcsim run lost_stack.svci --units 2 --schedule rotate --trace lost_stack.csv
#
# The first store of the second task's call is to no data, which is trap 6. With a line `.svc_register sp, stack_end` each task
# begins with the pointer, and the program exits with 24.

.svc_limit 100

.svc_entry
        lui sp, 0x100           # stack_end, the 17th word of the data
        addi sp, sp, 64
        addi a0, zero, 5
        jal add_double
.svc_entry
        addi a0, zero, 7
        jal add_double          # here sp is 0
        lw a0, 0(a5)
        mv a7, zero
        ecall                   # would exit with 24

# As gcc makes it of: void add_double(int n) { sum += twice(n); }
add_double:
        addi sp, sp, -16
        sw ra, 12(sp)
        jal twice
        lui a5, 0x100
        addi a5, a5, 64
        lw a4, 0(a5)
        add a4, a4, a0
        sw a4, 0(a5)
        lw ra, 12(sp)
        addi sp, sp, 16
        jr ra
twice:  add a0, a0, a0
        ret

.data
stack:  .word 0
        .word 0
        .word 0
        .word 0
        .word 0
        .word 0
        .word 0
        .word 0
        .word 0
        .word 0
        .word 0
        .word 0
        .word 0
        .word 0
        .word 0
        .word 0
stack_end:
sum:    .word 0
