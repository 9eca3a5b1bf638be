/* A lost wake-up: a hart sleeps if nothing is there, and another one wakes it after it has put something there. If that comes between the look and
   the sleep, nobody wakes the sleeper: the run never ends. */
#include "racing.h"

#ifdef RIGHT
static atomic_uint there, asleep;
#else
static volatile unsigned there, asleep;
#endif

static void work(unsigned hart)
{
    if (hart == 0) {
        think(40);
#ifdef RIGHT
        asleep = 1;
        if (there)
            asleep = 0;
#else
        if (!there)
            asleep = 1;
#endif
        while (asleep)
            paged_yield();
    } else {
        think(60);
        there = 1;
        asleep = 0;
    }
}

int main(void)
{
    run_harts(2);
    return told(there == 1);
}
