# About 100 million instructions of arithmetic, branches and calls.
        li   s0, 7142857        # how often
        li   s1, 1
again:  jal  ra, mix
        addi s0, s0, -1
        bne  s0, zero, again
        mv   a0, s1
        li   a7, 94             # end of process, with the sum's low bits as its status
        ecall
mix:    slli t0, s1, 5
        xor  s1, s1, t0
        srli t0, s1, 3
        add  s1, s1, t0
        slt  t1, s1, t0
        beq  t1, zero, even
        sub  s1, s1, s0
        andi t2, s1, 255
        jalr zero, 0(ra)
even:   or   t2, s1, t1
        sra  t2, t2, t1
        add  s1, s1, s0
        jalr zero, 0(ra)
