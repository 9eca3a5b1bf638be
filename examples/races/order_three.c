/* An order that takes three pre-emptions: the second hart has to look in each of the first one's three stages. */
#include "racing.h"

#ifdef RIGHT
static atomic_uint stage;
#else
static volatile unsigned stage;
#endif
static unsigned seen;

static void work(unsigned hart)
{
    if (hart == 0) {
        for (unsigned next = 1; next <= 3; next++) {
            think(60);
            stage = next;
        }
        think(60);
    } else {
        unsigned looks[3];
        for (unsigned look = 0; look < 3; look++) {
            think(45);
            looks[look] = stage;
        }
#ifndef RIGHT
        seen = looks[0] == 1 && looks[1] == 2 && looks[2] == 3;
#else
        seen = looks[0] > looks[1] || looks[1] > looks[2];
#endif
    }
}

int main(void)
{
    run_harts(2);
    return told(!seen);
}
