# Local labels: a number may stand before many lines.
.svc_entry
    addi a0, zero, 3
1:  addi a0, a0, -1         # the first label 1
    bnez a0, 1b
    beqz a0, 1f
    j 2f
1:  addi a1, zero, 7        # the second one
2:  addi a1, a1, -1
    bnez a1, 2b
    bnez a1, 1b
    blt a0, a1, 1f
    jal 2f
1:
2:  la a2, 10f
    lui a3, %hi(10f+4)
    lw a4, %lo(10f+4)(a3)
    call 1b
0:  j 0b
    addi a7, zero, 0
    ecall
.data
10: .word 10b, 1b, 0b + 4, 11f
    .word 1b
11: .byte 1
    .align 2
10: .word 10b - 4
