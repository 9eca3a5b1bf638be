# Two harts that count to 2000 together.
#
# Hart 0 starts a second hart at `child`, then runs the same lines itself. Each adds 1 to `count` a thousand times, by
# an atomic memory operation, and then adds 1 to the word behind it. Who finds a 0 there was first and ends its hart;
# who finds a 1 was last and ends the process with the count, 2000, whatever order the two ran in.

        la   s0, count
        la   a0, child
        li   a1, 0
        li   a2, 0
        li   a7, 1024           # a hart more, at a0
        ecall
child:  la   s0, count
        li   t0, 1000
        li   t1, 1
loop:   amoadd.w zero, t1, (s0)
        addi t0, t0, -1
        bnez t0, loop
        addi s1, s0, 4
        amoadd.w t2, t1, (s1)
        beqz t2, off
        lw   a0, 0(s0)
        li   a7, 94             # the end of the process
        ecall
off:    li   a7, 93             # the end of this hart
        ecall

        .data
count:  .word 0, 0
