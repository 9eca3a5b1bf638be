/* Eight queens: how many ways there are to place them so that none attacks another, and the first of them.
   A recursion with three sets of bits: columns, and the two kinds of diagonal that are taken. */
#include "paged.h"

enum { SIZE = 8 };

static unsigned place_of[SIZE]; /* the column of each row's queen */
static unsigned found;

static void show(void)
{
    for (unsigned row = 0; row < SIZE; row++) {
        char line[2 * SIZE];
        for (unsigned column = 0; column < SIZE; column++) {
            line[2 * column] = place_of[row] == column ? 'Q' : '.';
            line[2 * column + 1] = column + 1 < SIZE ? ' ' : '\n';
        }
        write_all(line, sizeof line);
    }
}

static void place(unsigned row, unsigned columns, unsigned falling, unsigned rising)
{
    if (row == SIZE) {
        if (found++ == 0)
            show();
        return;
    }
    for (unsigned column = 0; column < SIZE; column++) {
        unsigned here = 1u << column;
        if ((columns | falling | rising) & here)
            continue;
        place_of[row] = column;
        place(row + 1, columns | here, (falling | here) << 1, (rising | here) >> 1);
    }
}

int main(void)
{
    place(0, 0, 0, 0);
    print_number(found);
    print(" ways\n");
    return 0;
}
