# A branch to a weak name is two instructions, however near that is: another text might give the name.
.svc_entry
start:
    beqz a0, aside
    bne a1, a2, near
    bge a1, a2, aside + 4
    blez a0, other
    j aside
    call aside
near:
    ret
aside:
    nop
    ecall
.weak aside, unused
.weak other
.set other, near
.globl aside
.data
    .word aside
