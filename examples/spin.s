# Two harts that go round for ever.
#
# Hart 0 starts a second hart at `loop`, and goes there itself. By turns of one instruction each they fill the schedule of
# their process, which takes a million turns: then the machine ends it.

        la   a0, loop
        li   a1, 0
        li   a7, 1024           # a hart more, at a0
        ecall
loop:   j    loop
