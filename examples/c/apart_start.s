# The start code of apart.c: one entry for each task, which sets what the call needs and falls through to the next. Registers and
# stack are as in start.s.

.svc_limit 20000
.svc_register sp, stack_end

.text
.svc_entry
    li a0, 0
    call make_block
.svc_entry
    li a0, 1
    call make_block
.svc_entry
    li a0, 2
    call make_block
.svc_entry
    li a0, 3
    call make_block
.svc_entry
    li a0, 4
    call make_block
.svc_entry
    li a0, 5
    call make_block
.svc_entry
    li a0, 0
    call count_block
.svc_entry
    li a0, 1
    call count_block
.svc_entry
    li a0, 2
    call count_block
.svc_entry
    li a0, 3
    call count_block
.svc_entry
    li a0, 4
    call count_block
.svc_entry
    li a0, 5
    call count_block
.svc_entry
    li a0, 0
    call look_up
.svc_entry
    li a0, 1
    call look_up
.svc_entry
    li a0, 0
    call place_block
.svc_entry
    li a0, 1
    call place_block
.svc_entry
    li a0, 2
    call place_block
.svc_entry
    li a0, 3
    call place_block
.svc_entry
    li a0, 4
    call place_block
.svc_entry
    li a0, 5
    call place_block
.svc_entry
    li a0, 2
    call look_up
.svc_entry
    li a0, 3
    call look_up
.svc_entry
    call put_counts
.svc_entry
    li a0, 0
    call multiply_row
.svc_entry
    li a0, 1
    call multiply_row
.svc_entry
    call sum_table
.svc_entry
    li a0, 2
    call multiply_row
.svc_entry
    li a0, 3
    call multiply_row
.svc_entry
    li a0, 0
    call sum_values
.svc_entry
    li a0, 1
    call sum_values
.svc_entry
    call sum_product
.svc_entry
    li a0, 0
    call put_sum
.svc_entry
    li a0, 1
    call put_sum
.svc_entry
    call result
    li a7, 0             # exits with what the function returned
    ecall

# Puts the word a0 out: put_word(word).
put_word:
    li a7, 1
    ecall
    ret

.bss
    .align 4
stack:
    .zero 256
stack_end:
    .zero 4
