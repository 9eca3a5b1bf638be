/* A deadlock: two harts take two locks in opposite order. If each has one, both wait for ever, with no call of the machine. */
#include "racing.h"

static atomic_uint locks[2];
static unsigned number;

static void wait_for(atomic_uint *lock)
{
    while (atomic_exchange_explicit(lock, 1, memory_order_acquire) != 0)
        ;
}

static void work(unsigned hart)
{
#ifdef RIGHT
    unsigned first = 0;
#else
    unsigned first = hart;
#endif
    think(30 + 40 * hart);
    wait_for(&locks[first]);
    wait_for(&locks[1 - first]);
    number++;
    give_back(&locks[1 - first]);
    give_back(&locks[first]);
}

int main(void)
{
    run_harts(2);
    return told(number == 2);
}
