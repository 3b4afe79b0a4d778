# The start code of a program whose `main` is as other machines call it: one task calls it, and the next one exits with what it
# returned. That one begins too early on several units, and is squashed when `main` has returned. compilers.py puts this text last.

.text
.svc_register sp, start_stack_end

.svc_entry
    call main
    la t0, start_returned
    sw a0, 0(t0)
.svc_entry
    la t0, start_returned
    lw a0, 0(t0)
    li a7, 0
    ecall
    .align 8                # so that GNU's assembler has nothing to fill the end of the text with

.data
    .align 2
start_heap_at:
    .word start_heap
start_returned:
    .word 0

.bss
    .align 4
start_heap:
    .zero 8192
start_stack:
    .zero 16384
start_stack_end:
    .zero 4
