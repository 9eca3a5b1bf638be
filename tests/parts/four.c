/* Four harts that put twenty numbers into a table, five each, under a lock, for tests/test-gdb. They begin together, so that they come to
   the same places in turns that follow each other. Each has a variable of its own, `mine`. Built with -g, in the repository's folder:

   c=examples/c
   riscv64-unknown-elf-gcc -march=rv32ima -mabi=ilp32 -Og -g -gdwarf-4 -ffreestanding -nostartfiles -nostdlib -static \
       -ffile-prefix-map=$PWD=. -Wa,--debug-prefix-map=$PWD=. -o tests/parts/four.elf -I$c $c/crt0.S $c/hart.S tests/parts/four.c -lgcc */
#include <stdatomic.h>
#include "paged.h"

enum { HARTS = 4, EACH = 5, STACK = 512 };

static atomic_uint lock, begun, done;
static char stacks[HARTS - 1][STACK] __attribute__((aligned(16)));
unsigned table[HARTS * EACH], filled;
unsigned marks[HARTS];
_Thread_local unsigned mine = 7;

static void take(void)
{
    while (atomic_exchange_explicit(&lock, 1, memory_order_acquire))
        paged_yield();
}

static void give_back(void)
{
    atomic_store_explicit(&lock, 0, memory_order_release);
}

__attribute__((noinline)) void put(unsigned number)
{
    mine++;
    take();
    table[filled] = number;
    filled++;
    give_back();
}

__attribute__((noinline)) void work(unsigned hart)
{
    atomic_fetch_add(&begun, 1);
    while (atomic_load(&begun) < HARTS)
        ;
    for (unsigned i = 0; i < EACH; i++)
        put(hart * 100 + i);
    marks[hart] = mine;
    atomic_fetch_add(&done, 1);
}

unsigned hart_main(void *argument)
{
    work((unsigned)argument);
    return 0;
}

int main(void)
{
    for (unsigned hart = 1; hart < HARTS; hart++)
        paged_spawn(stacks[hart - 1] + STACK, (void *)hart);
    print("begun\n");
    work(0);
    while (atomic_load(&done) < HARTS)
        paged_yield();
    print_number(filled);
    print(" are put\n");
    return 0;
}
