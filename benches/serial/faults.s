# Stores a word in each of 128 pages, 2000 times over: on fewer frames each store is a page fault, and each page that leaves has
# changed and is saved.

        lui  a0, 0xA0           # the break: 128 pages from 0x00020000 on, and some below
        li   a7, 214
        ecall
        li   s1, 2000
        lui  s2, 1              # a page
again:  lui  t0, 0x20
        li   t1, 128
store:  sw   t1, 0(t0)
        add  t0, t0, s2
        addi t1, t1, -1
        bnez t1, store
        addi s1, s1, -1
        bnez s1, again
        li   a0, 0
        li   a7, 94
        ecall
