# Labels before and behind, in both sections, and directives that take their addresses.
.svc_start main
.svc_register a0, table
main: .svc_entry
    addi a1, zero, 3
again:
    addi a1, a1, -1     # two turns more
    beq a1, zero, done
    jal zero, again
done: ecall
.data
.word 7
table: .word main
.word table
