# Why the order of a loop matters to a paged machine: a matrix of 64 rows, each a page of 1024 words, filled and then
# summed up twice.
#
# By rows, each page is used to its end before the next one is touched. By columns, each word lies in another page than
# the one before it, and with fewer than 64 frames a page is gone again when its turn comes. The sums are the same, and
# on flat memory so is the time; compare the counts of page-ins where memory is smaller. Only eight columns are summed,
# and eight words of each row, so that the sums agree. The exit status is 0 where they do.

        .text
_start: lui  s0, 0x7FFC0        # the stack's 64 pages are the matrix
        lui  s1, 1              # from row to row
        li   s2, 64             # rows
        li   s3, 8              # columns

        mv   t0, s0             # fill: word k of row r is 8 r + k
        li   t1, 0
        li   t2, 0
fill:   mv   t3, t0
        li   t4, 0
word:   sw   t1, 0(t3)
        addi t1, t1, 1
        addi t3, t3, 4
        addi t4, t4, 1
        bne  t4, s3, word
        add  t0, t0, s1
        addi t2, t2, 1
        bne  t2, s2, fill

        li   a1, 0              # by rows
        mv   t0, s0
        li   t2, 0
rows:   mv   t3, t0
        li   t4, 0
across: lw   t5, 0(t3)
        add  a1, a1, t5
        addi t3, t3, 4
        addi t4, t4, 1
        bne  t4, s3, across
        add  t0, t0, s1
        addi t2, t2, 1
        bne  t2, s2, rows

        li   a2, 0              # by columns
        mv   t0, s0
        li   t4, 0
columns: mv  t3, t0
        li   t2, 0
down:   lw   t5, 0(t3)
        add  a2, a2, t5
        add  t3, t3, s1
        addi t2, t2, 1
        bne  t2, s2, down
        addi t0, t0, 4
        addi t4, t4, 1
        bne  t4, s3, columns

        sub  a0, a1, a2
        sltu a0, zero, a0
        li   a7, 94             # the end of the process
        ecall
