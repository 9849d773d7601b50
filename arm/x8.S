/* A planted error: hilofanur_list as an export that takes its answer's place in X0, as x86-64 does, and not in X8.
 * For compare.c, linked with --wrap=hilofanur_list. */
    .text
    .globl __wrap_hilofanur_list
__wrap_hilofanur_list:
    mov x8, x0
    mov x0, x1
    mov x1, x2
    mov x2, x3
    b __real_hilofanur_list
    .section .note.GNU-stack, "", %progbits
