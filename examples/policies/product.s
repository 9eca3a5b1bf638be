# A product of two matrices of 16 rows and 16 columns, C = A B, each word of C by a row of A and a column of B.
#
# Each row of B is a page of its own, so that a column of B goes through 16 pages. A and C are a page each. With the page of the text
# that is 19 pages. A's word in row i and column k is i + k, B's in row k and column j is k - j. The exit status is the sum of C's
# words, low six bits: 0.

        .text
_start: lui  s0, 0x7FFC0        # B, a page a row
        lui  s1, 0x7FFD0        # A, 64 bytes a row
        lui  s2, 0x7FFD1        # C, alike
        lui  s3, 1              # from row to row of B
        li   s4, 16

        li   t0, 0              # fill: row t0, column t1
        mv   t2, s0
        mv   t3, s1
row:    li   t1, 0
        mv   t4, t2
word:   sub  t5, t0, t1
        sw   t5, 0(t4)
        add  t5, t0, t1
        sw   t5, 0(t3)
        addi t3, t3, 4
        addi t4, t4, 4
        addi t1, t1, 1
        bne  t1, s4, word
        add  t2, t2, s3
        addi t0, t0, 1
        bne  t0, s4, row

        li   a0, 0              # the sum of C's words
        li   t0, 0              # i
        mv   a1, s1             # row i of A
each:   li   t1, 0              # j
        mv   a2, s0             # column j of B
term:   li   t2, 0              # k
        li   t6, 0
        mv   t3, a1
        mv   t4, a2
down:   lw   a3, 0(t3)
        lw   a4, 0(t4)
        mul  a3, a3, a4
        add  t6, t6, a3
        addi t3, t3, 4
        add  t4, t4, s3
        addi t2, t2, 1
        bne  t2, s4, down
        sw   t6, 0(s2)
        add  a0, a0, t6
        addi s2, s2, 4
        addi a2, a2, 4
        addi t1, t1, 1
        bne  t1, s4, term
        addi a1, a1, 64
        addi t0, t0, 1
        bne  t0, s4, each

        andi a0, a0, 63
        li   a7, 94             # the end of the process
        ecall
