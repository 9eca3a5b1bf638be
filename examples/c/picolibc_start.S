# Where a C or C++ program with picolibc begins: as crt0.S. What main answers goes to exit, which does what is to be done at the end, as
# to write out what is kept back.
#include "start.h"
        .section .text.start, "ax"
        .globl  _start
_start:
        begin_program
        call    main
        call    exit
