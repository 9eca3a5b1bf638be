/* Four harts enter amounts into one account, under a lock. There is a fault: nearly every run passes, and now and then an amount is lost. */
#include <stdatomic.h>
#include "../c/paged.h"

enum { HARTS = 4, ENTRIES = 10, STACK = 1024 };

static atomic_uint lock, harts_done;
static volatile unsigned entries, sum; /* of the hart that has the lock */
static char stacks[HARTS - 1][STACK] __attribute__((aligned(16)));

static void take(void)
{
    while (atomic_exchange_explicit(&lock, 1, memory_order_acquire) != 0)
        paged_yield();
}

static void give_back(void)
{
    atomic_store_explicit(&lock, 0, memory_order_release);
}

/* What an entry is about: some work that needs no lock. */
static unsigned amount_of(unsigned entry)
{
    unsigned mixed = entry;
    for (unsigned round = 0; round < 200; round++)
        mixed = mixed * 1664525 + 1013904223;
    return mixed % 100;
}

static __attribute__((noinline)) void enter(unsigned amount)
{
    take();
    entries++;
    give_back();
    sum += amount;
}

unsigned hart_main(void *argument)
{
    for (unsigned entry = 0; entry < ENTRIES; entry++)
        enter(amount_of((unsigned)argument * ENTRIES + entry));
    atomic_fetch_add(&harts_done, 1);
    return 0;
}

int main(void)
{
    unsigned right = 0;
    for (unsigned entry = 0; entry < HARTS * ENTRIES; entry++)
        right += amount_of(entry);
    for (unsigned hart = 1; hart < HARTS; hart++)
        if (paged_spawn(stacks[hart - 1] + STACK, (void *)hart) < 0)
            return 1;
    hart_main((void *)0);
    while (atomic_load(&harts_done) < HARTS)
        paged_yield();
    print_number(entries);
    print(sum == right ? " entries, the sum is right\n" : " entries, an amount is lost\n");
    return sum != right;
}
