# Goes through 128 pages by bursts: stores to the next 32 at once, and works then; ninety times, and exits with 0.
        li   a0, 0
        li   a7, 214
        ecall                   # where the memory ends that it has
        mv   s3, a0
        lui  s5, 0x80           # 128 pages
        add  s5, s5, a0
        mv   a0, s5
        ecall
        mv   s0, s3
        li   s4, 90
        lui  s1, 1
round:  li   s2, 32
page:   lw   t0, 0(s0)
        addi t0, t0, 1
        sw   t0, 0(s0)
        add  s0, s0, s1
        addi s2, s2, -1
        bnez s2, page
        bne  s0, s5, rest
        mv   s0, s3
rest:   li   t1, 500000
work:   addi t1, t1, -1
        bnez t1, work
        addi s4, s4, -1
        bnez s4, round
        li   a0, 0
        li   a7, 93
        ecall
