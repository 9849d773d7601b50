/* For blocks.c: a block is entered with every register and the flags set, and every register and the flags are kept
 * as it leaves them. A dispatcher needs none of this (examples/jump.c). Frames: X0 to X30, SP, NZCV, eight bytes each.
 * For one thread. */
    .bss
    .balign 16
caller: .skip 8 * 14        /* SP, X19 to X30 */
called: .skip 8             /* the frame in use */
    .globl at_helper, left_by_helper
at_helper: .skip 8 * 33     /* as the helper finds them */
left_by_helper: .skip 8 * 33 /* as it is to leave them */

    .text
    .macro load frame       /* X1 to X15, X18 to X30 and NZCV of a frame in \frame, which is X16 or X17 */
    ldr x1, [\frame, #8 * 32]
    lsl x1, x1, #28
    msr nzcv, x1
    ldr x1, [\frame, #8 * 1]
    ldp x2, x3, [\frame, #8 * 2]
    ldp x4, x5, [\frame, #8 * 4]
    ldp x6, x7, [\frame, #8 * 6]
    ldp x8, x9, [\frame, #8 * 8]
    ldp x10, x11, [\frame, #8 * 10]
    ldp x12, x13, [\frame, #8 * 12]
    ldp x14, x15, [\frame, #8 * 14]
    ldp x18, x19, [\frame, #8 * 18]
    ldp x20, x21, [\frame, #8 * 20]
    ldp x22, x23, [\frame, #8 * 22]
    ldp x24, x25, [\frame, #8 * 24]
    ldp x26, x27, [\frame, #8 * 26]
    ldp x28, x29, [\frame, #8 * 28]
    ldr x0, [\frame]
    .endm

    .macro store frame      /* all but X16; X17 is lost */
    stp x0, x1, [\frame]
    stp x2, x3, [\frame, #8 * 2]
    stp x4, x5, [\frame, #8 * 4]
    stp x6, x7, [\frame, #8 * 6]
    stp x8, x9, [\frame, #8 * 8]
    stp x10, x11, [\frame, #8 * 10]
    stp x12, x13, [\frame, #8 * 12]
    stp x14, x15, [\frame, #8 * 14]
    stp x17, x18, [\frame, #8 * 17]
    stp x19, x20, [\frame, #8 * 19]
    stp x21, x22, [\frame, #8 * 21]
    stp x23, x24, [\frame, #8 * 23]
    stp x25, x26, [\frame, #8 * 25]
    stp x27, x28, [\frame, #8 * 27]
    stp x29, x30, [\frame, #8 * 29]
    mov x17, sp
    str x17, [\frame, #8 * 31]
    mrs x17, nzcv
    lsr x17, x17, #28
    str x17, [\frame, #8 * 32]
    .endm

/* void enter(uint64_t frame[33], const void *block): X17 of the entry is the block's address, X16 the frame's. */
    .globl enter, entered
enter:
    adrp x16, caller
    add x16, x16, :lo12:caller
    mov x17, sp
    str x17, [x16]
    stp x19, x20, [x16, #8 * 1]
    stp x21, x22, [x16, #8 * 3]
    stp x23, x24, [x16, #8 * 5]
    stp x25, x26, [x16, #8 * 7]
    stp x27, x28, [x16, #8 * 9]
    stp x29, x30, [x16, #8 * 11]
    adrp x16, called
    str x0, [x16, :lo12:called]
    mov x16, x0
    mov x17, x1
    ldr x0, [x16, #8 * 31]
    mov sp, x0
    load x16
    blr x17
entered:
    adrp x16, called
    ldr x16, [x16, :lo12:called]
    store x16
    adrp x16, caller
    add x16, x16, :lo12:caller
    ldp x19, x20, [x16, #8 * 1]
    ldp x21, x22, [x16, #8 * 3]
    ldp x23, x24, [x16, #8 * 5]
    ldp x25, x26, [x16, #8 * 7]
    ldp x27, x28, [x16, #8 * 9]
    ldp x29, x30, [x16, #8 * 11]
    ldr x17, [x16]
    mov sp, x17
    ret

/* Three helpers at different addresses. X16 is the helper's own address, so it may be lost; X17 is the way back. */
    .macro helper name
    .globl \name
\name:
    adrp x16, at_helper
    add x16, x16, :lo12:at_helper
    store x16
    adrp x16, left_by_helper
    add x16, x16, :lo12:left_by_helper
    mov x17, x30
    load x16
    ldr x30, [x16, #8 * 30]
    ldr x16, [x16, #8 * 16]
    br x17
    .endm
    helper spy_memory
    helper spy_32
    helper spy_16
    .section .note.GNU-stack, "", %progbits
