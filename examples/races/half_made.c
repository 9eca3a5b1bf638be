/* A half-made object: its address is given out before it is whole. Who takes it in between reads what is not there yet. */
#include "racing.h"

static struct object {
    unsigned width, height;
} object;

#ifdef RIGHT
static struct object *_Atomic made;
#else
static struct object *volatile made;
#endif
static unsigned area;

static void work(unsigned hart)
{
    if (hart == 0) {
        think(40);
#ifdef RIGHT
        object.width = 6;
        object.height = 7;
        made = &object;
#else
        made = &object;
        object.width = 6;
        object.height = 7;
#endif
    } else {
        while (!made)
            think(5);
        area = made->width * made->height;
    }
}

int main(void)
{
    run_harts(2);
    return told(area == 42);
}
