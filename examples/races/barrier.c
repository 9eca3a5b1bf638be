/* A barrier of two harts that is used twice. Its counter begins anew when the last one comes, but a hart that waits reads the counter: if the other
   one comes to the second round first, the waiting hart misses the end of the first, and both wait for ever. */
#include "racing.h"

enum { HARTS = 2 };

static atomic_uint come, round;
static unsigned parts[HARTS], sums[HARTS];

static void meet(void)
{
#ifdef RIGHT
    unsigned mine = round;
    if (atomic_fetch_add(&come, 1) + 1 == HARTS) {
        come = 0;
        atomic_fetch_add(&round, 1);
    }
    while (round == mine)
        paged_yield();
#else
    if (atomic_fetch_add(&come, 1) + 1 == HARTS)
        come = 0;
    while (come != 0)
        paged_yield();
#endif
}

static void work(unsigned hart)
{
    for (unsigned turn = 1; turn <= 2; turn++) {
        think(300 + 10 * hart);
        parts[hart] = turn;
        meet();
        sums[hart] += parts[0] + parts[1];
        think(300);
        meet();
    }
}

int main(void)
{
    run_harts(HARTS);
    return told(sums[0] == 6 && sums[1] == 6);
}
