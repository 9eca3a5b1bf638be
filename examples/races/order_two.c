/* An order that takes two pre-emptions: the second hart has to look between the first one's two stages, and again after the second stage. */
#include "racing.h"

#ifdef RIGHT
static atomic_uint stage;
#else
static volatile unsigned stage;
#endif
static unsigned seen;

static void work(unsigned hart)
{
    if (hart == 0) {
        think(30);
        stage = 1;
        think(30);
        stage = 2;
        think(30);
    } else {
        think(35);
        unsigned first = stage;
        think(10);
        unsigned second = stage;
#ifndef RIGHT
        seen = first == 1 && second == 2;
#else
        seen = first > second;
#endif
    }
}

int main(void)
{
    run_harts(2);
    return told(!seen);
}
