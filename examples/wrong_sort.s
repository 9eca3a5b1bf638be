# Sorts eight digits and writes them with a line end. It has a fault; docs/DEBUGGING.md finds it.
        la   s0, digits
        li   s1, 8              # how many passes
pass:   mv   t0, s0             # the first of two neighbours
        li   t1, 8              # how many pairs
pair:   lb   t2, 0(t0)
        lb   t3, 1(t0)
        bge  t3, t2, next
        sb   t3, 0(t0)          # the lower one goes first
        sb   t2, 1(t0)
next:   addi t0, t0, 1
        addi t1, t1, -1
        bnez t1, pair
        addi s1, s1, -1
        bnez s1, pass
        mv   a1, s0
        li   a2, 9
        li   a7, 64             # write
        ecall
        li   a0, 0
        li   a7, 94             # end
        ecall

        .data
digits: .ascii "52481637\n"
