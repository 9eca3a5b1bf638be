# A hart that starts another one, yields and ends; the other one ends the process, with 7 as its status.
        la   a0, child
        li   a1, 0
        li   a2, 7
        li   a7, 1024           # spawn
        ecall
        li   a7, 124            # yield
        ecall
        li   a7, 93             # the end of the hart
        ecall
child:  li   a7, 94             # the end of the process
        ecall
