# Other names of data, and data by numbers.
    .svc_entry
    ecall
    .word 1; .long 2, there
    .int 0xffffffff
    .data
there:
    .hword 1, -2
    .long -3
    .int 4, 5
    .zero 3, 0xa5
    .space 2, -1
    .skip 1, 7
    .fill 3
    .fill 2, 2
    .fill 3, 4, 0x01020304
    .fill 2, 3, -2
    .fill 2, 8, -1
    .fill 0, 4, 9
    .fill 5, 0, 9
    .ascii "\x41\x0", "\x1234z;#", "a;b"; .byte 9
    .string "\xfg"
