/* A pair that is changed under a lock, and read without it. The reader may see one half old and one half new. */
#include "racing.h"

static atomic_uint lock;
static volatile unsigned low, high;
static unsigned torn;

static void work(unsigned hart)
{
    for (unsigned time = 1; time <= 3; time++) {
        think(30 + 15 * hart);
        if (hart == 0) {
            take(&lock);
            low = time;
            high = 10 * time;
            give_back(&lock);
        } else {
#ifdef RIGHT
            take(&lock);
#endif
            unsigned half = low;
            torn += high != 10 * half;
#ifdef RIGHT
            give_back(&lock);
#endif
        }
    }
}

int main(void)
{
    run_harts(2);
    return told(torn == 0);
}
