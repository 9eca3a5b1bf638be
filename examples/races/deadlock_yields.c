/* A deadlock of three harts, each of which takes its own lock and then the next one's. Who waits yields. */
#include "racing.h"

enum { HARTS = 3 };

static atomic_uint locks[HARTS];
static unsigned eaten[HARTS];

static void work(unsigned hart)
{
    unsigned first = hart, second = (hart + 1) % HARTS;
#ifdef RIGHT
    if (second < first)
        first = second, second = hart;
#endif
    think(20 + 30 * hart);
    take(&locks[first]);
    take(&locks[second]);
    eaten[hart]++;
    give_back(&locks[second]);
    give_back(&locks[first]);
}

int main(void)
{
    run_harts(HARTS);
    return told(eaten[0] + eaten[1] + eaten[2] == HARTS);
}
