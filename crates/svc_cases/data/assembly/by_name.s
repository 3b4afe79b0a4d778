# Calls through another register, and accesses by name.
    .svc_entry
    call near
    call near@plt
    call t0, near
    call a0, far@plt
    tail near@plt
    tail far
near:
    lb a0, byte
    lh a1, half + 2
    lw a2, word
    lbu a3, byte+1
    lhu a4, half
    lw t0, 1f
    sb a0, byte, t0
    sh a1, half+2, t1
    sw a2, word - 4, t2
    sw a2, near, a2
    .zero 0
far:
    ecall
1:  .word 7
    .data
byte: .byte 1, 2
half: .half 3, 4
    .align 2
word: .word 5
