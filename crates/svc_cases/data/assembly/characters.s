# Characters as numbers.
.svc_entry
    addi a0, zero, 'x'
    li a1, 'A'
    li a2, '\n'
    li a3, -'a'
    lw a4, ' '(a0)
    slli a0, a0, '\t'
    lui a0, '#'
    ecall
.data
    .byte 'a', '\n', '\\', '\'', '"', '\t', '\b', '\f', '\r', ' ', '#', ';', '/', '*'
    .half 'z', -'z'
    .word 'a'+1, '0' - 1
    .zero '\b'
    .set star, '*'
    .word star
