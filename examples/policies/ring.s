# Goes round 16 pages of data, fifty times: with the page of the text a loop over 17 pages, one more than there are where a machine has
# 16 frames. The exit status is how often it went round.

        .text
_start: lui  s0, 0x7FFC0        # the first page
        lui  s1, 1              # from page to page
        li   s2, 16             # pages
        li   s3, 50             # rounds

        li   a0, 0
round:  mv   t0, s0
        li   t1, 0
page:   lw   t2, 0(t0)
        add  t0, t0, s1
        addi t1, t1, 1
        bne  t1, s2, page
        addi a0, a0, 1
        bne  a0, s3, round

        li   a7, 94             # the end of the process
        ecall
