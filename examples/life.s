# Conway's game of life: a glider on a field of eight by eight cells, and where it is after each of four generations.
#
# The field's edges meet (a cell's number is taken modulo 64), each cell is one byte, `#` or `.`, and the next
# generation is built in a second field, since each cell's fate depends on the old one alone. After four generations
# the glider is what it was, one row and one column further on.

        .text
_start: li   s11, 5             # generations to show
show:   la   s0, field
        li   s1, 0
row:    add  a1, s0, s1         # eight cells and a line feed
        li   a2, 8
        call write
        la   a1, newline
        li   a2, 1
        call write
        addi s1, s1, 8
        li   t0, 64
        bne  s1, t0, row
        la   a1, newline
        li   a2, 1
        call write
        addi s11, s11, -1
        beqz s11, end

        la   s2, next
        li   s1, 0
cell:   li   s3, 0              # living neighbours
        la   s4, around
        li   s5, 8
count:  lb   t0, 0(s4)
        add  t0, t0, s1
        andi t0, t0, 63
        add  t0, t0, s0
        lbu  t1, 0(t0)
        li   t2, 0x23           # '#'
        bne  t1, t2, dead
        addi s3, s3, 1
dead:   addi s4, s4, 1
        addi s5, s5, -1
        bnez s5, count
        add  t0, s0, s1         # born with three, alive with two or three
        lbu  t1, 0(t0)
        li   t3, 3
        beq  s3, t3, lives
        li   t3, 2
        bne  s3, t3, dies
        j    put
lives:  li   t1, 0x23           # '#'
        j    put
dies:   li   t1, 0x2E           # '.'
put:    add  t0, s2, s1
        sb   t1, 0(t0)
        addi s1, s1, 1
        li   t0, 64
        bne  s1, t0, cell

        li   s1, 0              # the next generation takes the place of the old, a word at a time
copy:   add  t0, s2, s1
        lw   t1, 0(t0)
        add  t0, s0, s1
        sw   t1, 0(t0)
        addi s1, s1, 4
        li   t0, 64
        bne  s1, t0, copy
        j    show

end:    li   a0, 0
        li   a7, 94             # the end of the process
        ecall

# Writes a2 bytes from a1 on. Field and line feed lie in one page, so that a call takes all of them.
write:  li   a7, 64
        ecall
        ret

        .data
field:  .ascii ".#......"
        .ascii "..#....."
        .ascii "###....."
        .ascii "........"
        .ascii "........"
        .ascii "........"
        .ascii "........"
        .ascii "........"
next:   .space 64
around: .byte -9, -8, -7, -1, 1, 7, 8, 9
newline: .ascii "\n"
