# Sections by how their names begin, and zeros that a name stands for.
.svc_entry
    nop
.section .text.more,"ax"
    nop
.section .data.first,"aw"
    .word 7
    .word common
    .word local
.section .bss.first,"aw"
    .zero 4
.comm common, 4, 4
.lcomm local, 8, 4
.section .sdata.second
    .word 8
