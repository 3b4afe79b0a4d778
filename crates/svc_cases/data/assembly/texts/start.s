# Start code for texts that gcc made of two files, with names that the other texts share, and a weak one that yields to theirs.
.svc_register sp, stack_end
.svc_entry
    li a0, 6
    call sum_odds
.svc_entry
    li a0, 3
    call helped
    li a1, 5
    beq a0, a1, leave       # stands in another text: two instructions
    bnez a0, .L5
    nop
.L5:                        # no other text's
    ecall
    .weak helped
helped:
    li a0, 1
    ret
.data
    .byte 7
.bss
    .align 4
stack:
    .zero 256
stack_end:
    .zero 4
