# A C program of 34 tasks: its functions as gcc compiles them, the start code, and what * / % need. Made by examples/c/build.sh.
	.file	"apart.c"
	.option nopic
	.attribute arch, "rv32i2p1"
	.attribute unaligned_access, 0
	.attribute stack_align, 16
	.text
	.align	2
	.type	by_sum, @function
by_sum:
	slli	a5,a0,5
	sub	a0,a5,a0
	add	a0,a0,a1
	ret
	.size	by_sum, .-by_sum
	.align	2
	.type	by_turn, @function
by_turn:
	slli	a5,a0,5
	srli	a0,a0,27
	or	a0,a5,a0
	xor	a0,a0,a1
	ret
	.size	by_turn, .-by_turn
	.align	2
	.globl	make_block
	.type	make_block, @function
make_block:
	lui	a5,%hi(.LANCHOR0)
	slli	a4,a0,2
	addi	a5,a5,%lo(.LANCHOR0)
	add	a5,a5,a4
	lui	a2,%hi(.LANCHOR1)
	slli	a1,a0,4
	lw	a4,0(a5)
	addi	a2,a2,%lo(.LANCHOR1)
	slli	a5,a0,7
	li	a6,1013903360
	slli	a0,a0,16
	addi	a7,a1,16
	srli	a0,a0,16
	add	a2,a2,a5
	addi	a6,a6,863
.L5:
	slli	a3,a4,2
	add	a3,a3,a4
	slli	a5,a3,6
	sub	a5,a5,a3
	slli	a5,a5,2
	add	a5,a5,a4
	slli	a3,a5,5
	add	a5,a5,a3
	slli	a5,a5,3
	add	a5,a5,a4
	slli	a4,a5,2
	add	a5,a5,a4
	add	a4,a5,a6
	srli	a5,a4,16
	sw	a5,0(a2)
	sh	a0,4(a2)
	addi	a1,a1,1
	addi	a2,a2,8
	blt	a1,a7,.L5
	ret
	.size	make_block, .-make_block
	.globl	__umodsi3
	.globl	__udivsi3
	.globl	__divsi3
	.align	2
	.globl	count_block
	.type	count_block, @function
count_block:
	addi	sp,sp,-32
	sw	s2,16(sp)
	lui	s2,%hi(.LANCHOR1)
	sw	s0,24(sp)
	sw	s1,20(sp)
	addi	s2,s2,%lo(.LANCHOR1)
	slli	s1,a0,4
	slli	s0,a0,7
	sw	s3,12(sp)
	sw	s4,8(sp)
	sw	ra,28(sp)
	addi	s3,s1,16
	add	s0,s2,s0
	slli	s4,a0,3
.L8:
	lw	a0,0(s0)
	li	a1,1000
	addi	s1,s1,1
	call	__umodsi3
	li	a1,125
	call	__udivsi3
	add	a5,s4,a0
	slli	a5,a5,2
	add	a5,s2,a5
	lw	a4,768(a5)
	sb	a0,6(s0)
	addi	s0,s0,8
	addi	a4,a4,1
	sw	a4,768(a5)
	blt	s1,s3,.L8
	lw	ra,28(sp)
	lw	s0,24(sp)
	lw	s1,20(sp)
	lw	s2,16(sp)
	lw	s3,12(sp)
	lw	s4,8(sp)
	addi	sp,sp,32
	jr	ra
	.size	count_block, .-count_block
	.align	2
	.globl	put_counts
	.type	put_counts, @function
put_counts:
	addi	sp,sp,-16
	sw	s1,4(sp)
	lui	s1,%hi(.LANCHOR1)
	addi	s1,s1,%lo(.LANCHOR1)
	addi	a4,s1,960
	sw	ra,12(sp)
	sw	s0,8(sp)
	addi	s1,s1,992
.L12:
	addi	s0,a4,-192
	li	a0,0
.L13:
	lw	a5,0(s0)
	addi	s0,s0,32
	add	a0,a0,a5
	bne	s0,a4,.L13
	call	put_word
	addi	a4,s0,4
	bne	a4,s1,.L12
	lw	ra,12(sp)
	lw	s0,8(sp)
	lw	s1,4(sp)
	addi	sp,sp,16
	jr	ra
	.size	put_counts, .-put_counts
	.align	2
	.globl	place_block
	.type	place_block, @function
place_block:
	lui	t3,%hi(.LANCHOR1)
	addi	sp,sp,-32
	addi	t3,t3,%lo(.LANCHOR1)
	mv	a6,sp
	addi	t1,t3,768
	addi	t4,sp,32
	li	a2,0
	li	a7,6
.L20:
	sw	a2,0(a6)
	mv	a4,t1
	li	a5,0
.L19:
	lw	a3,0(a4)
	ble	a0,a5,.L18
	lw	a1,0(a6)
	add	a1,a1,a3
	sw	a1,0(a6)
.L18:
	addi	a5,a5,1
	add	a2,a2,a3
	addi	a4,a4,32
	bne	a5,a7,.L19
	addi	a6,a6,4
	addi	t1,t1,4
	bne	a6,t4,.L20
	slli	a2,a0,4
	slli	a0,a0,7
	addi	a7,a2,16
	add	a0,t3,a0
.L21:
	lbu	a5,6(a0)
	lw	a6,0(a0)
	lw	a1,4(a0)
	slli	a5,a5,2
	addi	a5,a5,32
	add	a5,a5,sp
	lw	a3,-32(a5)
	addi	a2,a2,1
	addi	a0,a0,8
	slli	a4,a3,3
	add	a4,t3,a4
	addi	a3,a3,1
	sw	a3,-32(a5)
	sw	a6,960(a4)
	sw	a1,964(a4)
	blt	a2,a7,.L21
	addi	sp,sp,32
	jr	ra
	.size	place_block, .-place_block
	.globl	__mulsi3
	.align	2
	.globl	multiply_row
	.type	multiply_row, @function
multiply_row:
	addi	sp,sp,-48
	sw	s3,28(sp)
	sw	s7,12(sp)
	lui	s3,%hi(.LANCHOR0)
	lui	s7,%hi(.LANCHOR1)
	addi	s7,s7,%lo(.LANCHOR1)
	addi	s3,s3,%lo(.LANCHOR0)
	slli	a5,a0,4
	sw	s4,24(sp)
	sw	s9,4(sp)
	addi	s4,s7,1728
	addi	s9,s3,24
	addi	s3,s3,40
	sw	s5,20(sp)
	sw	s6,16(sp)
	sw	s8,8(sp)
	sw	s10,0(sp)
	sw	ra,44(sp)
	sw	s0,40(sp)
	sw	s1,36(sp)
	sw	s2,32(sp)
	mv	s8,a0
	add	s4,s4,a5
	addi	s6,s7,960
	add	s9,s9,a5
	add	s3,s3,a5
	li	s5,0
	li	s10,4
.L27:
	mv	s1,s6
	mv	s0,s9
	li	s2,0
.L28:
	lw	a1,0(s1)
	lw	a0,0(s0)
	addi	s0,s0,4
	addi	s1,s1,32
	call	__mulsi3
	add	s2,s2,a0
	bne	s0,s3,.L28
	sw	s2,0(s4)
	addi	s5,s5,1
	addi	s4,s4,4
	addi	s6,s6,8
	bne	s5,s10,.L27
	slli	a5,s8,2
	add	a5,a5,s8
	slli	a5,a5,2
	lw	s0,40(sp)
	add	s7,s7,a5
	lw	a0,1728(s7)
	lw	ra,44(sp)
	lw	s1,36(sp)
	lw	s2,32(sp)
	lw	s3,28(sp)
	lw	s4,24(sp)
	lw	s5,20(sp)
	lw	s6,16(sp)
	lw	s7,12(sp)
	lw	s8,8(sp)
	lw	s9,4(sp)
	lw	s10,0(sp)
	addi	sp,sp,48
	tail	put_word
	.size	multiply_row, .-multiply_row
	.align	2
	.globl	look_up
	.type	look_up, @function
look_up:
	lui	t3,%hi(.LANCHOR0+88)
	slli	t4,a0,1
	slli	a5,a0,3
	addi	t3,t3,%lo(.LANCHOR0+88)
	lui	t1,%hi(.LANCHOR1)
	li	t5,4096
	addi	t6,t4,2
	add	t3,t3,a5
	addi	t1,t1,%lo(.LANCHOR1)
	slli	a7,a0,4
	addi	t5,t5,1285
.L41:
	lw	a0,0(t3)
	lbu	a6,0(a0)
	beq	a6,zero,.L42
	mv	a4,a6
	mv	a5,a0
	mv	a1,t5
.L34:
	slli	a3,a1,5
	add	a1,a3,a1
	addi	a5,a5,1
	add	a1,a4,a1
	lbu	a4,0(a5)
	bne	a4,zero,.L34
.L55:
	andi	a1,a1,15
.L54:
	add	a5,a7,a1
	slli	a5,a5,3
	add	a5,t1,a5
	lw	a5,1792(a5)
	beq	a5,zero,.L36
	lbu	a4,0(a5)
	mv	a2,a6
	mv	a3,a0
	bne	a4,zero,.L37
	j	.L38
.L39:
	lbu	a4,0(a5)
	lbu	a2,0(a3)
	beq	a4,zero,.L38
.L37:
	addi	a5,a5,1
	addi	a3,a3,1
	beq	a2,a4,.L39
.L40:
	addi	a1,a1,1
	j	.L55
.L38:
	bne	a2,zero,.L40
.L36:
	add	a5,a7,a1
	slli	a5,a5,3
	add	a5,t1,a5
	lw	a4,1796(a5)
	sw	a0,1792(a5)
	addi	t4,t4,1
	addi	a4,a4,1
	sw	a4,1796(a5)
	addi	t3,t3,4
	blt	t4,t6,.L41
	ret
.L42:
	li	a1,5
	j	.L54
	.size	look_up, .-look_up
	.align	2
	.globl	sum_values
	.type	sum_values, @function
sum_values:
	addi	sp,sp,-32
	slli	a5,a0,1
	add	a5,a5,a0
	sw	s0,24(sp)
	lui	s0,%hi(.LANCHOR1+960)
	sw	s1,20(sp)
	sw	s4,8(sp)
	slli	s1,a5,4
	addi	s0,s0,%lo(.LANCHOR1+960)
	slli	a5,a5,7
	lui	s4,%hi(stirs)
	sw	s2,16(sp)
	sw	s3,12(sp)
	sw	ra,28(sp)
	mv	s3,a0
	addi	s2,s1,48
	add	s0,s0,a5
	li	a0,0
	addi	s4,s4,%lo(stirs)
.L57:
	andi	a5,s1,1
	slli	a5,a5,2
	lhu	a1,4(s0)
	lw	a4,0(s0)
	add	a5,s4,a5
	lw	a5,0(a5)
	add	a1,a1,a4
	addi	s1,s1,1
	jalr	a5
	addi	s0,s0,8
	blt	s1,s2,.L57
	lui	a5,%hi(.LANCHOR2)
	lw	ra,28(sp)
	lw	s0,24(sp)
	slli	s3,s3,2
	addi	a5,a5,%lo(.LANCHOR2)
	add	a5,a5,s3
	sw	a0,-1792(a5)
	lw	s1,20(sp)
	lw	s2,16(sp)
	lw	s3,12(sp)
	lw	s4,8(sp)
	addi	sp,sp,32
	jr	ra
	.size	sum_values, .-sum_values
	.align	2
	.globl	sum_product
	.type	sum_product, @function
sum_product:
	lui	a0,%hi(.LANCHOR1)
	addi	a0,a0,%lo(.LANCHOR1)
	addi	a1,a0,1744
	li	a5,0
	addi	a0,a0,1808
.L61:
	addi	a4,a1,-16
.L62:
	lw	a3,0(a4)
	slli	a2,a5,5
	sub	a5,a2,a5
	addi	a4,a4,4
	add	a5,a5,a3
	bne	a4,a1,.L62
	addi	a1,a4,16
	bne	a1,a0,.L61
	lui	a4,%hi(.LANCHOR2-1784)
	sw	a5,%lo(.LANCHOR2-1784)(a4)
	ret
	.size	sum_product, .-sum_product
	.align	2
	.globl	sum_table
	.type	sum_table, @function
sum_table:
	lui	a6,%hi(.LANCHOR1)
	addi	a6,a6,%lo(.LANCHOR1)
	addi	a4,a6,1796
	li	a3,0
	addi	a6,a6,1924
.L66:
	lw	a2,128(a4)
	lw	a5,0(a4)
	lw	a0,256(a4)
	lw	a1,384(a4)
	add	a5,a5,a2
	add	a5,a5,a0
	slli	a2,a3,5
	srli	a3,a3,27
	add	a5,a5,a1
	or	a3,a2,a3
	addi	a4,a4,8
	xor	a3,a5,a3
	bne	a6,a4,.L66
	lui	a5,%hi(.LANCHOR2-1780)
	sw	a3,%lo(.LANCHOR2-1780)(a5)
	ret
	.size	sum_table, .-sum_table
	.align	2
	.globl	put_sum
	.type	put_sum, @function
put_sum:
	lui	a5,%hi(.LANCHOR2)
	slli	a0,a0,2
	addi	a5,a5,%lo(.LANCHOR2)
	add	a5,a5,a0
	lw	a0,-1792(a5)
	tail	put_word
	.size	put_sum, .-put_sum
	.align	2
	.globl	result
	.type	result, @function
result:
	lui	a5,%hi(.LANCHOR2)
	addi	a5,a5,%lo(.LANCHOR2)
	lw	a4,-1792(a5)
	lw	a2,-1788(a5)
	lw	a3,-1784(a5)
	lw	a0,-1780(a5)
	add	a5,a4,a2
	add	a5,a5,a3
	addi	sp,sp,-16
	li	a1,100
	add	a0,a5,a0
	sw	ra,12(sp)
	call	__umodsi3
	lw	ra,12(sp)
	addi	sp,sp,16
	jr	ra
	.size	result, .-result
	.section	.rodata.str1.4,"aMS",@progbits,1
	.align	2
.LC0:
	.string	"load"
	.align	2
.LC1:
	.string	"store"
	.align	2
.LC2:
	.string	"branch"
	.align	2
.LC3:
	.string	"call"
	.align	2
.LC4:
	.string	"return"
	.section	.rodata
	.align	2
	.set	.LANCHOR0,. + 0
	.type	states, @object
	.size	states, 24
states:
	.word	39
	.word	-1320854985
	.word	308901959
	.word	1580030551
	.word	-2087583641
	.word	903375479
	.type	factors, @object
	.size	factors, 64
factors:
	.word	3
	.word	-1
	.word	4
	.word	1
	.word	-5
	.word	9
	.word	2
	.word	6
	.word	5
	.word	3
	.word	-5
	.word	8
	.word	9
	.word	7
	.word	9
	.word	-3
	.type	words, @object
	.size	words, 32
words:
	.word	.LC0
	.word	.LC1
	.word	.LC2
	.word	.LC0
	.word	.LC3
	.word	.LC1
	.word	.LC0
	.word	.LC4
	.bss
	.align	2
	.set	.LANCHOR1,. + 0
	.set	.LANCHOR2,. + 4096
	.type	items, @object
	.size	items, 768
items:
	.zero	768
	.type	counts, @object
	.size	counts, 192
counts:
	.zero	192
	.type	sorted, @object
	.size	sorted, 768
sorted:
	.zero	768
	.type	product, @object
	.size	product, 64
product:
	.zero	64
	.type	table, @object
	.size	table, 512
table:
	.zero	512
	.type	sums, @object
	.size	sums, 16
sums:
	.zero	16
	.section	.srodata,"a"
	.align	2
	.type	stirs, @object
	.size	stirs, 8
stirs:
	.word	by_sum
	.word	by_turn
	.ident	"GCC: (12.2.0-14+deb12u1+11+b2) 12.2.0"
# The start code of apart.c: one entry for each task, which sets what the call needs and falls through to the next. Registers and
# stack are as in start.s.

.svc_limit 20000
.svc_register sp, stack_end

.text
.svc_entry
    li a0, 0
    call make_block
.svc_entry
    li a0, 1
    call make_block
.svc_entry
    li a0, 2
    call make_block
.svc_entry
    li a0, 3
    call make_block
.svc_entry
    li a0, 4
    call make_block
.svc_entry
    li a0, 5
    call make_block
.svc_entry
    li a0, 0
    call count_block
.svc_entry
    li a0, 1
    call count_block
.svc_entry
    li a0, 2
    call count_block
.svc_entry
    li a0, 3
    call count_block
.svc_entry
    li a0, 4
    call count_block
.svc_entry
    li a0, 5
    call count_block
.svc_entry
    li a0, 0
    call look_up
.svc_entry
    li a0, 1
    call look_up
.svc_entry
    li a0, 0
    call place_block
.svc_entry
    li a0, 1
    call place_block
.svc_entry
    li a0, 2
    call place_block
.svc_entry
    li a0, 3
    call place_block
.svc_entry
    li a0, 4
    call place_block
.svc_entry
    li a0, 5
    call place_block
.svc_entry
    li a0, 2
    call look_up
.svc_entry
    li a0, 3
    call look_up
.svc_entry
    call put_counts
.svc_entry
    li a0, 0
    call multiply_row
.svc_entry
    li a0, 1
    call multiply_row
.svc_entry
    call sum_table
.svc_entry
    li a0, 2
    call multiply_row
.svc_entry
    li a0, 3
    call multiply_row
.svc_entry
    li a0, 0
    call sum_values
.svc_entry
    li a0, 1
    call sum_values
.svc_entry
    call sum_product
.svc_entry
    li a0, 0
    call put_sum
.svc_entry
    li a0, 1
    call put_sum
.svc_entry
    call result
    li a7, 0             # exits with what the function returned
    ecall

# Puts the word a0 out: put_word(word).
put_word:
    li a7, 1
    ecall
    ret

.bss
    .align 4
stack:
    .zero 256
stack_end:
    .zero 4
# What C's operators * / % need of a processor without them: the functions that gcc calls by these names. They take a0 and a1, answer
# in a0, use no stack, and change t0 to t4 besides.

.text

# a0 * a1, by the bits of a1. The product's low word is the same with signs and without.
__mulsi3:
    mv t0, a0
    li a0, 0
multiply_bit:
    andi t1, a1, 1
    beqz t1, multiply_next
    add a0, a0, t0
multiply_next:
    slli t0, t0, 1
    srli a1, a1, 1
    bnez a1, multiply_bit
    ret

# a0 / a1 without signs; by 0 it is 2^32 - 1. Leaves the remainder in t0.
__udivsi3:
    li t0, 0
    li t1, 32
divide_bit:
    srli t3, t0, 31         # the bit that the remainder has no room for
    slli t0, t0, 1          # the next bit of the dividend, from the top
    srli t2, a0, 31
    or t0, t0, t2
    slli a0, a0, 1
    bnez t3, divide_subtract
    bltu t0, a1, divide_next
divide_subtract:
    sub t0, t0, a1
    addi a0, a0, 1
divide_next:
    addi t1, t1, -1
    bnez t1, divide_bit
    ret

# a0 % a1 without signs; by 0 it is a0.
__umodsi3:
    mv t4, ra
    call __udivsi3
    mv a0, t0
    jr t4
