/* Four harts keep one account, in turns that a lock gives: only the hart that holds it reads and changes the account, by plain
   loads and stores. The lock is a word of C11's atomics, for which gcc has LR.W and SC.W with -march=rv32ima. A hart that finds it
   taken lets the others run. */
#include <stdatomic.h>
#include "paged.h"

enum { HARTS = 4, ENTRIES = 250, STACK = 1024 };

static atomic_uint lock, harts_done;
static struct { unsigned entries, sum; } account; /* its holder's */
static char stacks[HARTS - 1][STACK] __attribute__((aligned(16)));

static void take(void)
{
    unsigned is_free = 0;
    while (!atomic_compare_exchange_weak_explicit(&lock, &is_free, 1, memory_order_acquire, memory_order_relaxed)) {
        is_free = 0;
        paged_yield();
    }
}

static void give_back(void)
{
    atomic_store_explicit(&lock, 0, memory_order_release);
}

/* Enters the numbers of one hart: 1 to 250 by the first, 251 to 500 by the next, and so on. */
static void keep_account(unsigned hart)
{
    for (unsigned entry = 1; entry <= ENTRIES; entry++) {
        take();
        account.entries++;
        account.sum += hart * ENTRIES + entry;
        give_back();
    }
    atomic_fetch_add(&harts_done, 1);
}

unsigned hart_main(void *argument)
{
    keep_account((unsigned)argument);
    return 0;
}

int main(void)
{
    for (unsigned hart = 1; hart < HARTS; hart++)
        if (paged_spawn(stacks[hart - 1] + STACK, (void *)hart) < 0)
            return 1;
    keep_account(0);
    while (atomic_load(&harts_done) < HARTS)
        paged_yield();
    print_number(account.entries);
    print(" entries, ");
    print_number(account.sum);
    print(" in all\n");
    return 0;
}
