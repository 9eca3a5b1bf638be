/* A deadlock that the plain run comes to: two harts take two locks in opposite order, in step with each other. By turns of one instruction both have
   their first lock before one of them asks for the second. */
#include "racing.h"

static atomic_uint locks[2], begun;
static unsigned number;

static void wait_for(atomic_uint *lock)
{
    while (atomic_exchange_explicit(lock, 1, memory_order_acquire) != 0)
        ;
}

static void work(unsigned hart)
{
#ifdef RIGHT
    unsigned first = 0;
#else
    unsigned first = hart;
#endif
    atomic_fetch_add(&begun, 1);
    while (atomic_load(&begun) < 2)
        ;
    wait_for(&locks[first]);
    think(30);
    wait_for(&locks[1 - first]);
    number++;
    give_back(&locks[1 - first]);
    give_back(&locks[first]);
}

int main(void)
{
    run_harts(2);
    return told(number == 2);
}
