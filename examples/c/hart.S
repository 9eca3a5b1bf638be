# Where a further hart of a C program begins. sp is the stack that it was given, a0 its argument; every other register is 0, so that gp
# is set here as in crt0.S, and the hart has variables of a thread of its own, at the end of its stack. What hart_main answers is the
# hart's status: the last hart to end ends the process with it. What a library keeps for a hart is seen to by hart_ends, where there is one.
#include "start.h"
        .section .text.hart, "ax"
        .globl  hart_start
        .weak   hart_ends
hart_start:
        set_global_pointer
        place_thread_variables
        call    hart_main
        mv      s0, a0
        la      t0, hart_ends
        beqz    t0, 1f
        jalr    t0
1:      mv      a0, s0
        li      a7, 93          # the end of this hart alone
        ecall
