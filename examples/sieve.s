# The primes below 100, by the sieve of Eratosthenes, written one a line.
#
# A byte for each number is 0 while the number may be prime. Each number that is still marked 0 when the walk comes to
# it is prime, is printed, and its multiples are crossed out from its square on. `print` shows how a number becomes
# decimal digits: divu and remu by ten, from the last digit to the first.

        .text
_start: la   s0, crossed
        li   s1, 2              # the number that the walk has come to
        li   s2, 100            # the first that is not looked at
next:   bgeu s1, s2, done
        add  t0, s0, s1
        lbu  t1, 0(t0)
        bnez t1, skip
        mul  t2, s1, s1         # cross out from the square on: smaller multiples have a smaller factor
cross:  bgeu t2, s2, prime
        add  t0, s0, t2
        li   t1, 1
        sb   t1, 0(t0)
        add  t2, t2, s1
        j    cross
prime:  mv   a0, s1
        call print
skip:   addi s1, s1, 1
        j    next
done:   li   a0, 0
        li   a7, 94             # the end of the process
        ecall

# Writes a0 in decimal and a line feed.
print:  la   t0, line           # digits are put down from the right
        addi t0, t0, 10
        li   t1, 10
        sb   t1, 0(t0)          # the line feed
        li   a2, 1              # how many bytes stand there
digit:  remu t2, a0, t1
        addi t2, t2, 0x30
        addi t0, t0, -1
        sb   t2, 0(t0)
        addi a2, a2, 1
        divu a0, a0, t1
        bnez a0, digit
        mv   a1, t0
        li   a7, 64             # write; this line lies in one page, so all of it is taken
        ecall
        ret

        .data
line:   .space 12
crossed: .space 100
