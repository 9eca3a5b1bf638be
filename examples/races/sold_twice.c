/* A check and an act that do not stay together: the last ticket is sold twice if one hart sells it between the other's look and sale. Both are
   atomic, so that no access races: only a schedule shows it. */
#include "racing.h"

static atomic_int left = 3;
static atomic_uint lock;

static void work(unsigned hart)
{
    for (unsigned time = 0; time < 2; time++) {
        think(25 + 10 * hart);
#ifdef RIGHT
        take(&lock);
#endif
        if (atomic_load(&left) > 0)
            atomic_fetch_sub(&left, 1);
#ifdef RIGHT
        give_back(&lock);
#endif
    }
}

int main(void)
{
    run_harts(2);
    return told(left == 0);
}
