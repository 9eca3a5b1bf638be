/* A lost update: two harts add to a number by a load and a store. If one stores between the other's two, its addition is lost. */
#include "racing.h"

enum { TIMES = 3 };

#ifdef RIGHT
static atomic_uint number;
#else
static volatile unsigned number;
#endif

static void work(unsigned hart)
{
    for (unsigned time = 0; time < TIMES; time++) {
        think(30 + 10 * hart);
        number += 1;
    }
}

int main(void)
{
    run_harts(2);
    return told(number == 2 * TIMES);
}
