	.file	"evens.c"
	.option nopic
	.attribute arch, "rv32i2p1"
	.attribute unaligned_access, 0
	.attribute stack_align, 16
	.text
	.align	2
	.type	step, @function
step:
	lui	a4,%hi(calls)
	lw	a5,%lo(calls)(a4)
	addi	a5,a5,1
	sw	a5,%lo(calls)(a4)
	add	a0,a5,a0
	ret
	.size	step, .-step
	.align	2
	.globl	sum_evens
	.type	sum_evens, @function
sum_evens:
	addi	sp,sp,-32
	sw	s0,24(sp)
	lui	s0,%hi(.LANCHOR0)
	addi	s0,s0,%lo(.LANCHOR0)
	sw	s1,20(sp)
	sw	s2,16(sp)
	sw	s3,12(sp)
	sw	ra,28(sp)
	mv	s1,a0
	addi	s3,s0,16
	li	s2,0
.L5:
	lw	a0,0(s0)
	addi	s0,s0,4
	ble	a0,s1,.L8
	bne	s0,s3,.L5
.L9:
	lui	a4,%hi(shared)
	lw	a5,%lo(shared)(a4)
	lw	ra,28(sp)
	lw	s0,24(sp)
	add	a5,a5,s2
	sw	a5,%lo(shared)(a4)
	lw	s1,20(sp)
	lw	s3,12(sp)
	mv	a0,s2
	lw	s2,16(sp)
	addi	sp,sp,32
	jr	ra
.L8:
	call	step
	add	s2,s2,a0
	bne	s0,s3,.L5
	j	.L9
	.size	sum_evens, .-sum_evens
	.globl	evens
	.data
	.align	2
	.set	.LANCHOR0,. + 0
	.type	evens, @object
	.size	evens, 16
evens:
	.word	2
	.word	4
	.word	6
	.word	8
	.section	.sbss,"aw",@nobits
	.align	2
	.type	calls, @object
	.size	calls, 4
calls:
	.zero	4
	.ident	"GCC: (12.2.0-14+deb12u1+11+b2) 12.2.0"
