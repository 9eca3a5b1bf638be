# About 100 million instructions of loads, stores, multiplication and division, over a table of four pages.
        lui  s0, 0x7FFC0        # the table: 4096 words in the stack's pages
        li   s1, 4096
        li   s2, 1200           # how often
        li   s3, 1103515245     # the pseudo-random sequence of the words
        li   s4, 12345
        li   s5, 1000
        li   a0, 1
round:  mv   t0, s0
        mv   t1, s1
fill:   mul  a0, a0, s3
        add  a0, a0, s4
        sw   a0, 0(t0)
        addi t0, t0, 4
        addi t1, t1, -1
        bnez t1, fill
        mv   t0, s0
        mv   t1, s1
use:    lw   t2, 0(t0)
        lbu  t3, 1(t0)
        lh   t4, 2(t0)
        mulhu t5, t2, s3
        remu t2, t2, s5
        div  t4, t4, s5
        add  t3, t3, t4
        add  t2, t2, t5
        sb   t3, 3(t0)
        sw   t2, 0(t0)
        add  a0, a0, t2
        addi t0, t0, 4
        addi t1, t1, -1
        bnez t1, use
        addi s2, s2, -1
        bnez s2, round
        li   a7, 94             # the end of the process, with a sum as its status
        ecall
