/* The loop that is patched, and what patches it. Instructions of 32 bits at multiples of 4, so that one store writes one. */
    .option norvc
    .text
    .balign 4
    .globl area, calibrate

/* a0: the samples, a1: their number. Returns the sum of each times the gain. */
area:
    li a2, 0
next:
    lhu t0, 0(a0)
    addi a0, a0, 2
gain: /* patched */
    li t1, 1
    mul t0, t0, t1
    add a2, a2, t0
    addi a1, a1, -1
    bnez a1, next
    mv a0, a2
    ret

/* a0: the instruction that goes to gain, a1: the one that goes to number. Returns the number in the latter. */
calibrate:
    la t0, gain
    sw a0, 0(t0)
    la t0, number
    sw a1, 0(t0)
    fence
    fence.i
number: /* patched, right after FENCE.I */
    li a0, 0
    ret
