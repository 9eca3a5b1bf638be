/* An object that is made at first use, by two harts. If both look before one has made it, it is made twice, and what was kept in the first is lost. */
#include "racing.h"

static volatile unsigned pool, *volatile made;
static volatile unsigned places[4];
static atomic_uint lock;

static volatile unsigned *object(void)
{
    if (!made) {
        volatile unsigned *fresh = &places[pool++];
        think(3);
        made = fresh;
    }
    return made;
}

static void work(unsigned hart)
{
    think(40 + 20 * hart);
#ifdef RIGHT
    take(&lock);
#endif
    *object() += 1 + hart;
#ifdef RIGHT
    give_back(&lock);
#endif
}

int main(void)
{
    run_harts(2);
    return told(*made == 3 && pool == 1);
}
