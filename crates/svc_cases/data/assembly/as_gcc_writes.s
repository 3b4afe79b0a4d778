# The two tasks of p.s, between the directives that gcc writes.
	.file	"p.c"
	.option nopic
	.attribute arch, "rv32i2p1"
	.attribute unaligned_access, 0
	.svc_limit 100
	.section	.text.startup,"ax",@progbits
	.globl	store
	.type	store, @function
.svc_entry
store:
.LFB0:
	.cfi_startproc
	lui	t0, 0x100
	addi	ra,zero,5
	sw	ra,0(t0)
	.cfi_endproc
.LFE0:
	.size	store, .-store
	.globl	shared
	.section	.sbss,"aw",@nobits
	.type	shared, @object
	.size	shared, 8
shared:
	.word	0
	.text
	.weak	load
	.local	hidden
	.global	load
.svc_entry
load:
	lui	t0, 0x100
	lw	a0,0(t0)
	addi	a7,zero,1
	ecall
	mv	a7,zero
	ecall
	.section	.rodata.str1.4,"aMS",@progbits,1
	.word	0
	.ident	"GCC: (12.2.0) # 12.2.0"
