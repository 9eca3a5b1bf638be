# Three stores into its page of data, 17, and then a loop with no end.
        la   s0, buf
        li   t0, 5
        sb   t0, 0(s0)
        sb   t0, 1(s0)
        sb   t0, 2(s0)
        j    e
e:      j    e

        .data
buf:    .word 0
