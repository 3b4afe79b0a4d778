# A C program of 30 tasks: its functions as gcc compiles them, the start code, and what * / % need. Made by examples/c/build.sh.
	.file	"tasks.c"
	.option nopic
	.attribute arch, "rv32i2p1"
	.attribute unaligned_access, 0
	.attribute stack_align, 16
	.text
	.align	2
	.type	by_sum, @function
by_sum:
	slli	a5,a0,5
	sub	a0,a5,a0
	add	a0,a0,a1
	ret
	.size	by_sum, .-by_sum
	.align	2
	.type	by_turn, @function
by_turn:
	slli	a5,a0,5
	srli	a0,a0,27
	or	a0,a5,a0
	xor	a0,a0,a1
	ret
	.size	by_turn, .-by_turn
	.align	2
	.globl	make_block
	.type	make_block, @function
make_block:
	lui	t1,%hi(seed)
	lui	a2,%hi(.LANCHOR0)
	lw	a4,%lo(seed)(t1)
	slli	a1,a0,4
	slli	a5,a0,7
	addi	a2,a2,%lo(.LANCHOR0)
	slli	a0,a0,16
	li	a6,1013903360
	addi	a7,a1,16
	srli	a0,a0,16
	add	a2,a2,a5
	addi	a6,a6,863
.L5:
	slli	a3,a4,2
	add	a3,a3,a4
	slli	a5,a3,6
	sub	a5,a5,a3
	slli	a5,a5,2
	add	a5,a5,a4
	slli	a3,a5,5
	add	a5,a5,a3
	slli	a5,a5,3
	add	a5,a5,a4
	slli	a4,a5,2
	add	a5,a5,a4
	add	a4,a5,a6
	srli	a5,a4,16
	sw	a5,0(a2)
	sh	a0,4(a2)
	addi	a1,a1,1
	addi	a2,a2,8
	blt	a1,a7,.L5
	sw	a4,%lo(seed)(t1)
	ret
	.size	make_block, .-make_block
	.globl	__umodsi3
	.globl	__udivsi3
	.globl	__divsi3
	.align	2
	.globl	count_block
	.type	count_block, @function
count_block:
	addi	sp,sp,-32
	sw	s2,16(sp)
	lui	s2,%hi(.LANCHOR0)
	sw	s1,20(sp)
	addi	s2,s2,%lo(.LANCHOR0)
	slli	s1,a0,4
	slli	a0,a0,7
	sw	s0,24(sp)
	sw	s3,12(sp)
	sw	ra,28(sp)
	addi	s3,s1,16
	add	s0,s2,a0
.L8:
	lw	a0,0(s0)
	li	a1,1000
	addi	s1,s1,1
	call	__umodsi3
	li	a1,125
	call	__udivsi3
	slli	a5,a0,2
	add	a5,s2,a5
	lw	a4,768(a5)
	sb	a0,6(s0)
	addi	s0,s0,8
	addi	a4,a4,1
	sw	a4,768(a5)
	blt	s1,s3,.L8
	lw	ra,28(sp)
	lw	s0,24(sp)
	lw	s1,20(sp)
	lw	s2,16(sp)
	lw	s3,12(sp)
	addi	sp,sp,32
	jr	ra
	.size	count_block, .-count_block
	.align	2
	.globl	sum_counts
	.type	sum_counts, @function
sum_counts:
	addi	sp,sp,-32
	sw	s3,12(sp)
	lui	s3,%hi(.LANCHOR0)
	addi	s3,s3,%lo(.LANCHOR0)
	sw	s0,24(sp)
	sw	s1,20(sp)
	sw	s2,16(sp)
	addi	s0,s3,800
	addi	s2,s3,768
	sw	ra,28(sp)
	addi	s3,s3,832
	li	s1,0
.L12:
	lw	a0,0(s2)
	sw	s1,0(s0)
	addi	s0,s0,4
	add	s1,s1,a0
	addi	s2,s2,4
	call	put_word
	bne	s0,s3,.L12
	lw	ra,28(sp)
	lw	s0,24(sp)
	lw	s1,20(sp)
	lw	s2,16(sp)
	lw	s3,12(sp)
	addi	sp,sp,32
	jr	ra
	.size	sum_counts, .-sum_counts
	.align	2
	.globl	place_block
	.type	place_block, @function
place_block:
	lui	a6,%hi(.LANCHOR0)
	slli	a1,a0,4
	addi	a6,a6,%lo(.LANCHOR0)
	slli	a0,a0,7
	addi	t1,a1,16
	add	a4,a6,a0
.L16:
	lbu	a5,6(a4)
	lw	a7,0(a4)
	lw	a0,4(a4)
	slli	a5,a5,2
	add	a5,a6,a5
	lw	a2,800(a5)
	addi	a1,a1,1
	addi	a4,a4,8
	slli	a3,a2,3
	add	a3,a6,a3
	addi	a2,a2,1
	sw	a2,800(a5)
	sw	a7,832(a3)
	sw	a0,836(a3)
	blt	a1,t1,.L16
	ret
	.size	place_block, .-place_block
	.globl	__mulsi3
	.align	2
	.globl	multiply_row
	.type	multiply_row, @function
multiply_row:
	addi	sp,sp,-48
	sw	s7,12(sp)
	sw	s8,8(sp)
	lui	s7,%hi(.LANCHOR1)
	lui	s8,%hi(.LANCHOR0)
	addi	s8,s8,%lo(.LANCHOR0)
	addi	s7,s7,%lo(.LANCHOR1)
	slli	a5,a0,4
	sw	s3,28(sp)
	sw	s4,24(sp)
	addi	s3,s7,16
	addi	s4,s8,1600
	sw	s5,20(sp)
	sw	s6,16(sp)
	sw	s9,4(sp)
	sw	s10,0(sp)
	sw	ra,44(sp)
	sw	s0,40(sp)
	sw	s1,36(sp)
	sw	s2,32(sp)
	mv	s9,a0
	add	s4,s4,a5
	addi	s6,s8,832
	add	s7,s7,a5
	add	s3,s3,a5
	li	s5,0
	li	s10,4
.L19:
	mv	s1,s6
	mv	s0,s7
	li	s2,0
.L20:
	lw	a1,0(s1)
	lw	a0,0(s0)
	addi	s0,s0,4
	addi	s1,s1,32
	call	__mulsi3
	add	s2,s2,a0
	bne	s0,s3,.L20
	sw	s2,0(s4)
	addi	s5,s5,1
	addi	s4,s4,4
	addi	s6,s6,8
	bne	s5,s10,.L19
	slli	a0,s9,2
	add	a0,a0,s9
	slli	a0,a0,2
	lw	s0,40(sp)
	add	s8,s8,a0
	lw	a0,1600(s8)
	lw	ra,44(sp)
	lw	s1,36(sp)
	lw	s2,32(sp)
	lw	s3,28(sp)
	lw	s4,24(sp)
	lw	s5,20(sp)
	lw	s6,16(sp)
	lw	s7,12(sp)
	lw	s8,8(sp)
	lw	s9,4(sp)
	lw	s10,0(sp)
	addi	sp,sp,48
	tail	put_word
	.size	multiply_row, .-multiply_row
	.align	2
	.globl	look_up
	.type	look_up, @function
look_up:
	lui	t3,%hi(.LANCHOR1+64)
	slli	t4,a0,1
	slli	a5,a0,3
	addi	t3,t3,%lo(.LANCHOR1+64)
	lui	t1,%hi(.LANCHOR0)
	li	t5,4096
	addi	t6,t4,2
	add	t3,t3,a5
	addi	t1,t1,%lo(.LANCHOR0)
	addi	t5,t5,1285
.L33:
	lw	a6,0(t3)
	lbu	a7,0(a6)
	beq	a7,zero,.L34
	mv	a4,a7
	mv	a5,a6
	mv	a1,t5
.L26:
	slli	a3,a1,5
	add	a1,a3,a1
	addi	a5,a5,1
	add	a1,a4,a1
	lbu	a4,0(a5)
	bne	a4,zero,.L26
.L47:
	andi	a1,a1,15
.L46:
	slli	a0,a1,3
	add	a5,t1,a0
	lw	a5,1664(a5)
	beq	a5,zero,.L28
	lbu	a4,0(a5)
	mv	a2,a7
	mv	a3,a6
	bne	a4,zero,.L29
	j	.L30
.L31:
	lbu	a4,0(a5)
	lbu	a2,0(a3)
	beq	a4,zero,.L30
.L29:
	addi	a5,a5,1
	addi	a3,a3,1
	beq	a2,a4,.L31
.L32:
	addi	a1,a1,1
	j	.L47
.L30:
	bne	a2,zero,.L32
.L28:
	add	a0,t1,a0
	lw	a5,1668(a0)
	sw	a6,1664(a0)
	addi	t4,t4,1
	addi	a5,a5,1
	sw	a5,1668(a0)
	addi	t3,t3,4
	blt	t4,t6,.L33
	ret
.L34:
	li	a1,5
	j	.L46
	.size	look_up, .-look_up
	.align	2
	.globl	sum_up
	.type	sum_up, @function
sum_up:
	addi	sp,sp,-48
	sw	s1,36(sp)
	sw	s2,32(sp)
	sw	s5,20(sp)
	lui	s2,%hi(check)
	slli	s5,a0,1
	lui	s1,%hi(.LANCHOR0)
	add	a5,s5,a0
	sw	s0,40(sp)
	addi	s1,s1,%lo(.LANCHOR0)
	mv	s0,a0
	lw	a0,%lo(check)(s2)
	sw	s3,28(sp)
	sw	s4,24(sp)
	sw	s7,12(sp)
	slli	s4,a5,4
	addi	s3,s1,832
	slli	a5,a5,7
	lui	s7,%hi(stirs)
	sw	s6,16(sp)
	sw	ra,44(sp)
	addi	s6,s4,48
	add	s3,s3,a5
	addi	s7,s7,%lo(stirs)
.L49:
	andi	a5,s4,1
	slli	a5,a5,2
	lhu	a1,4(s3)
	lw	a4,0(s3)
	add	a5,s7,a5
	lw	a5,0(a5)
	add	a1,a1,a4
	addi	s4,s4,1
	jalr	a5
	addi	s3,s3,8
	blt	s4,s6,.L49
	addi	a2,s1,1616
	slli	a5,s0,5
	mv	a1,s5
	addi	a6,s5,2
	add	a2,a2,a5
.L50:
	addi	a5,a2,-16
.L51:
	lw	a3,0(a5)
	slli	a4,a0,5
	sub	a4,a4,a0
	addi	a5,a5,4
	add	a0,a4,a3
	bne	a5,a2,.L51
	addi	a1,a1,1
	addi	a2,a5,16
	blt	a1,a6,.L50
	slli	a5,s0,6
	add	s1,s1,a5
	slli	s0,s0,3
	addi	a3,s0,8
	addi	s1,s1,1668
.L53:
	lw	a4,0(s1)
	slli	a5,a0,5
	srli	a0,a0,27
	or	a5,a5,a0
	addi	s0,s0,1
	xor	a0,a5,a4
	addi	s1,s1,8
	blt	s0,a3,.L53
	lw	s0,40(sp)
	lw	ra,44(sp)
	lw	s1,36(sp)
	lw	s3,28(sp)
	lw	s4,24(sp)
	lw	s5,20(sp)
	lw	s6,16(sp)
	lw	s7,12(sp)
	sw	a0,%lo(check)(s2)
	lw	s2,32(sp)
	addi	sp,sp,48
	tail	put_word
	.size	sum_up, .-sum_up
	.align	2
	.globl	result
	.type	result, @function
result:
	lui	a5,%hi(check)
	lw	a0,%lo(check)(a5)
	addi	sp,sp,-16
	li	a1,100
	sw	ra,12(sp)
	call	__umodsi3
	lw	ra,12(sp)
	addi	sp,sp,16
	jr	ra
	.size	result, .-result
	.section	.rodata.str1.4,"aMS",@progbits,1
	.align	2
.LC0:
	.string	"load"
	.align	2
.LC1:
	.string	"store"
	.align	2
.LC2:
	.string	"branch"
	.align	2
.LC3:
	.string	"call"
	.align	2
.LC4:
	.string	"return"
	.section	.rodata
	.align	2
	.set	.LANCHOR1,. + 0
	.type	factors, @object
	.size	factors, 64
factors:
	.word	3
	.word	-1
	.word	4
	.word	1
	.word	-5
	.word	9
	.word	2
	.word	6
	.word	5
	.word	3
	.word	-5
	.word	8
	.word	9
	.word	7
	.word	9
	.word	-3
	.type	words, @object
	.size	words, 32
words:
	.word	.LC0
	.word	.LC1
	.word	.LC2
	.word	.LC0
	.word	.LC3
	.word	.LC1
	.word	.LC0
	.word	.LC4
	.bss
	.align	2
	.set	.LANCHOR0,. + 0
	.type	items, @object
	.size	items, 768
items:
	.zero	768
	.type	counts, @object
	.size	counts, 32
counts:
	.zero	32
	.type	places, @object
	.size	places, 32
places:
	.zero	32
	.type	sorted, @object
	.size	sorted, 768
sorted:
	.zero	768
	.type	product, @object
	.size	product, 64
product:
	.zero	64
	.type	table, @object
	.size	table, 128
table:
	.zero	128
	.section	.sbss,"aw",@nobits
	.align	2
	.type	check, @object
	.size	check, 4
check:
	.zero	4
	.section	.sdata,"aw"
	.align	2
	.type	seed, @object
	.size	seed, 4
seed:
	.word	39
	.section	.srodata,"a"
	.align	2
	.type	stirs, @object
	.size	stirs, 8
stirs:
	.word	by_sum
	.word	by_turn
	.ident	"GCC: (12.2.0-14+deb12u1+11+b2) 12.2.0"
# The start code of tasks.c: one entry for each task, which sets what the call needs and falls through to the next.
#
# Registers don't pass from task to task: each task begins with the same ones, those named here and else 0. So the stack's pointer
# is set for every task by the image, and a task's argument by its own start code. All tasks have one stack: each has its own
# versions of its words, and a function stores into its frame before it loads from it.

.svc_limit 20000
.svc_register sp, stack_end

.text
.svc_entry
    li a0, 0
    call make_block
.svc_entry
    li a0, 1
    call make_block
.svc_entry
    li a0, 2
    call make_block
.svc_entry
    li a0, 3
    call make_block
.svc_entry
    li a0, 4
    call make_block
.svc_entry
    li a0, 5
    call make_block
.svc_entry
    li a0, 0
    call count_block
.svc_entry
    li a0, 1
    call count_block
.svc_entry
    li a0, 2
    call count_block
.svc_entry
    li a0, 3
    call count_block
.svc_entry
    li a0, 4
    call count_block
.svc_entry
    li a0, 5
    call count_block
.svc_entry
    call sum_counts
.svc_entry
    li a0, 0
    call place_block
.svc_entry
    li a0, 1
    call place_block
.svc_entry
    li a0, 2
    call place_block
.svc_entry
    li a0, 3
    call place_block
.svc_entry
    li a0, 4
    call place_block
.svc_entry
    li a0, 5
    call place_block
.svc_entry
    li a0, 0
    call multiply_row
.svc_entry
    li a0, 1
    call multiply_row
.svc_entry
    li a0, 2
    call multiply_row
.svc_entry
    li a0, 3
    call multiply_row
.svc_entry
    li a0, 0
    call look_up
.svc_entry
    li a0, 1
    call look_up
.svc_entry
    li a0, 2
    call look_up
.svc_entry
    li a0, 3
    call look_up
.svc_entry
    li a0, 0
    call sum_up
.svc_entry
    li a0, 1
    call sum_up
.svc_entry
    call result
    li a7, 0             # exits with what the function returned
    ecall

# Puts the word a0 out: put_word(word).
put_word:
    li a7, 1
    ecall
    ret

.bss
    .align 4
stack:
    .zero 256
stack_end:
    .zero 4
# What C's operators * / % need of a processor without them: the functions that gcc calls by these names. They take a0 and a1, answer
# in a0, use no stack, and change t0 to t4 besides.

.text

# a0 * a1, by the bits of a1. The product's low word is the same with signs and without.
__mulsi3:
    mv t0, a0
    li a0, 0
multiply_bit:
    andi t1, a1, 1
    beqz t1, multiply_next
    add a0, a0, t0
multiply_next:
    slli t0, t0, 1
    srli a1, a1, 1
    bnez a1, multiply_bit
    ret

# a0 / a1 without signs; by 0 it is 2^32 - 1. Leaves the remainder in t0.
__udivsi3:
    li t0, 0
    li t1, 32
divide_bit:
    srli t3, t0, 31         # the bit that the remainder has no room for
    slli t0, t0, 1          # the next bit of the dividend, from the top
    srli t2, a0, 31
    or t0, t0, t2
    slli a0, a0, 1
    bnez t3, divide_subtract
    bltu t0, a1, divide_next
divide_subtract:
    sub t0, t0, a1
    addi a0, a0, 1
divide_next:
    addi t1, t1, -1
    bnez t1, divide_bit
    ret

# a0 % a1 without signs; by 0 it is a0.
__umodsi3:
    mv t4, ra
    call __udivsi3
    mv a0, t0
    jr t4
