/* The second file of lines.c. */
#include "lines.h"

__attribute__((noinline)) static unsigned part(unsigned value)
{
    return mixed(value) % 7;
}

unsigned others(unsigned count)
{
    unsigned sum = 0;
    while (count--)
        sum += part(count);
    return sum;
}
