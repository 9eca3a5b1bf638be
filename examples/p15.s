# One byte stored into a word of data: seven words that a debugger can be tried on.
#
# `buf` is at 0x00011000, the page behind the text. The byte goes to its fourth place, and the word then is 0x05000000.

        la   s0, buf
        li   t0, 5
        sb   t0, 3(s0)
        li   a0, 0
        li   a7, 94             # the end of the process
        ecall

        .data
buf:    .word 0
