# Eleven pages, each written, then each read again: a working set that a machine of four frames must page.
#
# The stack's 64 pages begin at 0x7FFC0000. The first loop stores 11, 10, .. 1 at the start of eleven of them,
# the second loads them again and sums them up. The sum is 66, the letter B, which is written and is the output.

        lui  s0, 0x7FFC0        # the first page
        lui  s1, 1              # the size of a page
        li   t0, 11
        mv   t1, s0
w:      sw   t0, 0(t1)          # write a page
        add  t1, t1, s1
        addi t0, t0, -1
        bnez t0, w

        li   t0, 11
        mv   t1, s0
        li   t2, 0
r:      lw   t3, 0(t1)          # read it again
        add  t2, t2, t3
        add  t1, t1, s1
        addi t0, t0, -1
        bnez t0, r

        sb   t2, 0(s0)          # the sum, as one byte
        mv   a1, s0
        li   a2, 1
        li   a7, 64             # write
        ecall
        li   a0, 0
        li   a7, 94             # the end of the process
        ecall
