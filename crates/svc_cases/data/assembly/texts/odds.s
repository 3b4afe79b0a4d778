	.file	"odds.c"
	.option nopic
	.attribute arch, "rv32i2p1"
	.attribute unaligned_access, 0
	.attribute stack_align, 16
	.text
	.align	2
	.type	step, @function
step:
	lui	a4,%hi(calls)
	lw	a5,%lo(calls)(a4)
	slli	a0,a0,1
	addi	a5,a5,-1
	sw	a5,%lo(calls)(a4)
	add	a0,a0,a5
	ret
	.size	step, .-step
	.align	2
	.globl	sum_odds
	.type	sum_odds, @function
sum_odds:
	addi	sp,sp,-32
	sw	s3,12(sp)
	sw	ra,28(sp)
	sw	s0,24(sp)
	sw	s1,20(sp)
	sw	s2,16(sp)
	li	a5,1
	mv	s3,a0
	ble	a0,a5,.L6
	addi	s2,a0,-2
	andi	s2,s2,-2
	addi	s2,s2,3
	li	s0,1
	li	s1,0
.L5:
	mv	a0,s0
	call	step
	addi	s0,s0,2
	add	s1,s1,a0
	bne	s0,s2,.L5
.L4:
	lui	a4,%hi(shared)
	lw	a5,%lo(shared)(a4)
	mv	a0,s3
	add	a5,a5,s1
	sw	a5,%lo(shared)(a4)
	call	sum_evens
	lw	ra,28(sp)
	lw	s0,24(sp)
	lw	s2,16(sp)
	lw	s3,12(sp)
	add	a0,a0,s1
	lw	s1,20(sp)
	addi	sp,sp,32
	jr	ra
.L6:
	li	s1,0
	j	.L4
	.size	sum_odds, .-sum_odds
	.globl	shared
	.globl	name
	.section	.sbss,"aw",@nobits
	.align	4
	.type	shared, @object
	.size	shared, 4
shared:
	.zero	4
	.section	.sdata,"aw"
	.align	2
	.type	name, @object
	.size	name, 4
name:
	.word	tag
	.type	calls, @object
	.size	calls, 4
calls:
	.word	100
	.section	.srodata,"a"
	.align	2
	.type	tag, @object
	.size	tag, 3
tag:
	.string	"ab"
	.ident	"GCC: (12.2.0-14+deb12u1+11+b2) 12.2.0"
