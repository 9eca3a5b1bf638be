# Adds 1 to a word of each of 128 pages, twenty times over, with work between, and exits with the sum of these words, 2560.
        li   s4, 20
round:  la   s0, pages
        lui  s1, 1
        li   s2, 128
page:   lw   t0, 0(s0)
        addi t0, t0, 1
        sw   t0, 0(s0)
        li   t1, 20000
work:   addi t1, t1, -1
        bnez t1, work
        add  s0, s0, s1
        addi s2, s2, -1
        bnez s2, page
        addi s4, s4, -1
        bnez s4, round
        la   s0, pages
        li   s2, 128
        li   a0, 0
sum:    lw   t0, 0(s0)
        add  a0, a0, t0
        add  s0, s0, s1
        addi s2, s2, -1
        bnez s2, sum
        li   a7, 94
        ecall

        .data
pages:  .space 65536
        .space 65536
        .space 65536
        .space 65536
        .space 65536
        .space 65536
        .space 65536
        .space 65536
