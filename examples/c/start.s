# The start code of tasks.c: one entry for each task, which sets what the call needs and falls through to the next.
#
# Registers don't pass from task to task: each task begins with the same ones, those named here and else 0. So the stack's pointer
# is set for every task by the image, and a task's argument by its own start code. All tasks have one stack: each has its own
# versions of its words, and a function stores into its frame before it loads from it.

.svc_limit 20000
.svc_register sp, stack_end

.text
.svc_entry
    li a0, 0
    call make_block
.svc_entry
    li a0, 1
    call make_block
.svc_entry
    li a0, 2
    call make_block
.svc_entry
    li a0, 3
    call make_block
.svc_entry
    li a0, 4
    call make_block
.svc_entry
    li a0, 5
    call make_block
.svc_entry
    li a0, 0
    call count_block
.svc_entry
    li a0, 1
    call count_block
.svc_entry
    li a0, 2
    call count_block
.svc_entry
    li a0, 3
    call count_block
.svc_entry
    li a0, 4
    call count_block
.svc_entry
    li a0, 5
    call count_block
.svc_entry
    call sum_counts
.svc_entry
    li a0, 0
    call place_block
.svc_entry
    li a0, 1
    call place_block
.svc_entry
    li a0, 2
    call place_block
.svc_entry
    li a0, 3
    call place_block
.svc_entry
    li a0, 4
    call place_block
.svc_entry
    li a0, 5
    call place_block
.svc_entry
    li a0, 0
    call multiply_row
.svc_entry
    li a0, 1
    call multiply_row
.svc_entry
    li a0, 2
    call multiply_row
.svc_entry
    li a0, 3
    call multiply_row
.svc_entry
    li a0, 0
    call look_up
.svc_entry
    li a0, 1
    call look_up
.svc_entry
    li a0, 2
    call look_up
.svc_entry
    li a0, 3
    call look_up
.svc_entry
    li a0, 0
    call sum_up
.svc_entry
    li a0, 1
    call sum_up
.svc_entry
    call result
    li a7, 0             # exits with what the function returned
    ecall

# Puts the word a0 out: put_word(word).
put_word:
    li a7, 1
    ecall
    ret

.bss
    .align 4
stack:
    .zero 256
stack_end:
    .zero 4
