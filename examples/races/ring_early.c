/* A ring of one writer and one reader, without a lock. The writer counts a slot as filled before it has filled it. */
#include "racing.h"

enum { SLOTS = 4, ITEMS = 8 };

static volatile unsigned slots[SLOTS];
static unsigned bad;

#ifdef RIGHT
static atomic_uint filled, emptied;
#define LOOK(at) atomic_load_explicit(&at, memory_order_acquire)
#define PUT(at, value) atomic_store_explicit(&at, value, memory_order_release)
#else
static volatile unsigned filled, emptied;
#define LOOK(at) at
#define PUT(at, value) at = value
#endif

static void work(unsigned hart)
{
    for (unsigned item = 0; item < ITEMS; item++) {
        think(6);
        if (hart == 0) {
            while (item - LOOK(emptied) == SLOTS)
                paged_yield();
#ifdef RIGHT
            slots[item % SLOTS] = item + 1;
            PUT(filled, item + 1);
#else
            PUT(filled, item + 1);
            slots[item % SLOTS] = item + 1;
#endif
        } else {
            while (LOOK(filled) == item)
                paged_yield();
            bad += slots[item % SLOTS] != item + 1;
            PUT(emptied, item + 1);
        }
    }
}

int main(void)
{
    run_harts(2);
    return told(bad == 0);
}
