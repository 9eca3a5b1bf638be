# Goes round 15 pages of data ten times, then round the next 15 ten times, and so on, four times: a loop that moves. The exit status
# is the number of pages, 60.

        .text
_start: lui  s0, 0x7FFC0        # the first page of the loop
        lui  s1, 1              # from page to page
        li   s2, 15             # pages of a loop
        li   s3, 10             # rounds
        li   s4, 60             # pages in all

        li   a0, 0
loop:   li   t3, 0
round:  mv   t0, s0
        li   t1, 0
page:   lw   t2, 0(t0)
        add  t0, t0, s1
        addi t1, t1, 1
        bne  t1, s2, page
        addi t3, t3, 1
        bne  t3, s3, round
        mv   s0, t0
        add  a0, a0, s2
        bne  a0, s4, loop

        li   a7, 94             # the end of the process
        ecall
