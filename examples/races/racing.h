/* What the guests of this folder share: harts that work, a lock, and how the end is told. With -DRIGHT each guest is built without its fault. */
#include <stdatomic.h>
#include "../c/paged.h"

enum { STACK = 1024, MOST_HARTS = 8 };

static char stacks[MOST_HARTS - 1][STACK] __attribute__((aligned(16)));
static atomic_uint harts_done;

static void work(unsigned hart);

unsigned hart_main(void *argument)
{
    work((unsigned)argument);
    atomic_fetch_add(&harts_done, 1);
    return 0;
}

/* Has so many harts work, this one as hart 0. Comes back when all are done. */
static inline void run_harts(unsigned harts)
{
    for (unsigned hart = 1; hart < harts; hart++)
        paged_spawn(stacks[hart - 1] + STACK, (void *)hart);
    hart_main((void *)0);
    while (atomic_load(&harts_done) < harts)
        paged_yield();
}

/* Some work that touches nothing shared. */
static inline unsigned think(unsigned rounds)
{
    unsigned mixed = rounds;
    for (unsigned round = 0; round < rounds; round++)
        mixed = mixed * 1664525 + 1013904223;
    __asm__ volatile("" : : "r"(mixed));
    return mixed;
}

static inline void take(atomic_uint *lock)
{
    while (atomic_exchange_explicit(lock, 1, memory_order_acquire) != 0)
        paged_yield();
}

static inline void give_back(atomic_uint *lock)
{
    atomic_store_explicit(lock, 0, memory_order_release);
}

/* The status of main. */
static inline int told(int is_right)
{
    print(is_right ? "right\n" : "wrong\n");
    return !is_right;
}
