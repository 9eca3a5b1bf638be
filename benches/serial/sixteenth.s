# For sixteen processes of equal page numbers that take turns of four instructions: each turn stores a word in the next of eight pages.
# By then the other processes have stored in fifteen more, so that on fewer frames each turn is a page fault.

        lui  a0, 0xA0
        li   a7, 214
        ecall
        li   s1, 2000
        lui  s2, 1              # a page
again:  lui  t0, 0x20
        li   t1, 8
store:  sw   t1, 0(t0)
        add  t0, t0, s2
        addi t1, t1, -1
        bnez t1, store
        addi s1, s1, -1
        bnez s1, again
        li   a0, 0
        li   a7, 94
        ecall
