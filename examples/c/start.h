/* What the beginnings of programs and of harts have in common, as macros of the assembler. */

/* gcc reaches small data through gp. */
        .macro  set_global_pointer
        .option push
        .option norelax
        la      gp, __global_pointer$
        .option pop
        .endm

/* Places the variables of a thread (`_Thread_local`) below sp, and moves sp below them: tp leads to them. The program's own header
   in memory tells where the linker laid their first values out, how many bytes those are and how many there are in all, the others 0,
   and at what multiple they begin. Where there are none, tp and sp stay. Changes t0 to t6. */
        .macro  place_thread_variables
        la      t0, __ehdr_start
        lw      t1, 28(t0)          /* where the program headers begin */
        lhu     t2, 44(t0)          /* how many there are */
        add     t0, t0, t1
        li      t3, 7               /* a segment of thread-local storage */
1:      beqz    t2, 5f
        lw      t1, 0(t0)
        beq     t1, t3, 2f
        addi    t0, t0, 32
        addi    t2, t2, -1
        j       1b
2:      lw      t1, 8(t0)           /* the first values */
        lw      t2, 16(t0)          /* their bytes */
        lw      t3, 20(t0)          /* all bytes */
        lw      t4, 28(t0)          /* the multiple */
        sub     sp, sp, t3
        neg     t4, t4
        and     sp, sp, t4
        andi    sp, sp, -16
        mv      tp, sp
        mv      t4, tp
        add     t2, tp, t2
        add     t3, tp, t3
3:      bgeu    t4, t2, 4f
        lbu     t5, 0(t1)
        sb      t5, 0(t4)
        addi    t1, t1, 1
        addi    t4, t4, 1
        j       3b
4:      bgeu    t4, t3, 5f
        sb      zero, 0(t4)
        addi    t4, t4, 1
        j       4b
5:
        .endm

/* Calls each function of an array, the first one first. Changes s0 and s1. */
        .macro  call_each first, end
        la      s0, \first
        la      s1, \end
1:      bgeu    s0, s1, 2f
        lw      t0, 0(s0)
        addi    s0, s0, 4
        jalr    t0
        j       1b
2:
        .endm

/* All that comes before main: gp, the variables of a thread, and constructors. With -DWITH_WORDS, the program's own stack, if it has one,
   comes first, and main gets the program's words, if it has room for them. */
#ifdef WITH_WORDS
        .weak   __guest_words
        .weak   __guest_stack_end
        .macro  set_own_stack
        la      t0, __guest_stack_end
        beqz    t0, 1f
        lw      sp, 0(t0)
1:
        .endm
        .macro  set_words
        la      t0, __guest_words
        beqz    t0, 1f
        lw      a0, 0(t0)
        addi    a1, t0, 4
1:
        .endm
#else
        .macro  set_own_stack
        .endm
        .macro  set_words
        .endm
#endif
        .macro  begin_program
        set_global_pointer
        set_own_stack
        place_thread_variables
        call_each __preinit_array_start, __preinit_array_end
        call_each __init_array_start, __init_array_end
        li      a0, 0
        la      a1, no_words
        mv      a2, a1
        set_words
        .endm

        .section .rodata
        .balign 4
no_words:
        .word   0
