# As faults.s, but the pages stand 16 apart, so that the replacement list's index sees many page numbers that are alike.

        lui  a0, 0x820          # the break: every sixteenth page from 0x00020000 on, 128 of them
        li   a7, 214
        ecall
        li   s1, 2000
        lui  s2, 16             # sixteen pages
again:  lui  t0, 0x20
        li   t1, 128
store:  sw   t1, 0(t0)
        add  t0, t0, s2
        addi t1, t1, -1
        bnez t1, store
        addi s1, s1, -1
        bnez s1, again
        li   a0, 0
        li   a7, 94
        ecall
