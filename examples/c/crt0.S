# Where a C or C++ program for paged begins: the stack pointer is set already; gp, the variables of a thread and what constructors do are
# seen to here. What main answers ends the process, after what destructors do.
#include "start.h"
        .section .text.start, "ax"
        .globl  _start
_start:
        begin_program
        call    main
        mv      s2, a0
        la      s0, __fini_array_end
        la      s1, __fini_array_start
1:      bgeu    s1, s0, 2f
        addi    s0, s0, -4
        lw      t0, 0(s0)
        jalr    t0
        j       1b
2:      mv      a0, s2
        li      a7, 94          # the end of the process, with main's answer in a0
        ecall
