# What C's operators * / % need of a processor without them: the functions that gcc calls by these names. They take a0 and a1, answer
# in a0, use no stack, and change t0 to t4 besides.

.text

# a0 * a1, by the bits of a1. The product's low word is the same with signs and without.
__mulsi3:
    mv t0, a0
    li a0, 0
multiply_bit:
    andi t1, a1, 1
    beqz t1, multiply_next
    add a0, a0, t0
multiply_next:
    slli t0, t0, 1
    srli a1, a1, 1
    bnez a1, multiply_bit
    ret

# a0 / a1 without signs; by 0 it is 2^32 - 1. Leaves the remainder in t0.
__udivsi3:
    li t0, 0
    li t1, 32
divide_bit:
    srli t3, t0, 31         # the bit that the remainder has no room for
    slli t0, t0, 1          # the next bit of the dividend, from the top
    srli t2, a0, 31
    or t0, t0, t2
    slli a0, a0, 1
    bnez t3, divide_subtract
    bltu t0, a1, divide_next
divide_subtract:
    sub t0, t0, a1
    addi a0, a0, 1
divide_next:
    addi t1, t1, -1
    bnez t1, divide_bit
    ret

# a0 % a1 without signs; by 0 it is a0.
__umodsi3:
    mv t4, ra
    call __udivsi3
    mv a0, t0
    jr t4
