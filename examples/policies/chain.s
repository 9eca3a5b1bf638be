# A list of 128 nodes, four in each of 32 pages, which is walked from its first node to its last, eight times.
#
# The node behind node n is node 13 n + 7, modulo 128: each stands in the list once, and most stand in another page than the one before
# them. A node is the address of the next one and a number. The exit status is the sum of all numbers that were met, low six bits: 0.

        .text
_start: lui  s0, 0x7FFC0        # the first of the pages, of 4096 bytes; a node has a quarter of one
        li   s1, 13
        li   s2, 128            # nodes
        li   s3, 8              # walks

        li   t0, 0              # link: node t1, which is the t0-th
        li   t1, 0
link:   slli t2, t1, 10
        add  t2, t2, s0
        mul  t3, t1, s1
        addi t3, t3, 7
        andi t3, t3, 127
        slli t4, t3, 10
        add  t4, t4, s0
        sw   t4, 0(t2)
        sw   t0, 4(t2)
        mv   t1, t3
        addi t0, t0, 1
        bne  t0, s2, link

        li   a0, 0
        li   t0, 0
walk:   mv   t1, s0
        li   t2, 0
node:   lw   t3, 4(t1)
        add  a0, a0, t3
        lw   t1, 0(t1)
        addi t2, t2, 1
        bne  t2, s2, node
        addi t0, t0, 1
        bne  t0, s3, walk

        andi a0, a0, 63
        li   a7, 94             # the end of the process
        ecall
