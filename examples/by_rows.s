# A table of 64 rows, each a page, whose words are added up by rows: all words of a row, then those of the next.
#
# Each page is used to its end before the next one is touched, so that few frames do as well as many. Compare the count line
# with that of by_columns.s, which adds up the same words by columns. Eight words of each row are filled and added up; the
# exit status is the sum's low six bits, 0.

        .text
_start: lui  s0, 0x7FFC0        # the stack's 64 pages are the table
        lui  s1, 1              # from row to row
        li   s2, 64             # rows
        li   s3, 8              # columns

        mv   t0, s0             # fill: word k of row r is 8 r + k
        li   t1, 0
        li   t2, 0
fill:   mv   t3, t0
        li   t4, 0
word:   sw   t1, 0(t3)
        addi t1, t1, 1
        addi t3, t3, 4
        addi t4, t4, 1
        bne  t4, s3, word
        add  t0, t0, s1
        addi t2, t2, 1
        bne  t2, s2, fill

        li   a0, 0              # the sum
        mv   t0, s0
        li   t2, 0
rows:   mv   t3, t0
        li   t4, 0
across: lw   t5, 0(t3)
        add  a0, a0, t5
        addi t3, t3, 4
        addi t4, t4, 1
        bne  t4, s3, across
        add  t0, t0, s1
        addi t2, t2, 1
        bne  t2, s2, rows

        andi a0, a0, 63
        li   a7, 94             # the end of the process
        ecall
