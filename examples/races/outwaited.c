/* A wait with an end: a hart looks for a result so many times, and then goes on without it. The plain run has the result long before. The fault shows
   if the waiting hart runs for longer than the plain run takes, while the other one has no turn. */
#include "racing.h"

enum { LOOKS = 400 };

static atomic_uint there, result;
static unsigned seen;

static void work(unsigned hart)
{
    if (hart == 0) {
        think(20);
        result = 7;
        there = 1;
    } else {
#ifdef RIGHT
        while (!there)
            paged_yield();
#else
        for (unsigned looks = 0; looks < LOOKS && !there; looks++)
            think(1);
#endif
        seen = result;
    }
}

int main(void)
{
    run_harts(2);
    return told(seen == 7);
}
