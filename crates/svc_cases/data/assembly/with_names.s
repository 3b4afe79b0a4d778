# Labels of text, data and zeros, names that aren't labels, and two labels at one address.
.set count, 3
.comm shared, 8, 4
.svc_entry
start:
again:
addi x5, x0, 3
1:
.Lhidden:
lui x6, %hi(table)
.svc_entry
finish:
addi x17, x0, 0
ecall
.rodata
constant:
.word 7
.data
table:
.word 1, count
.byte 3
odd:
.byte 4
.bss
.lcomm buffer, 4
