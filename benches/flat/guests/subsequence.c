/* The length of the longest common subsequence of two texts: one row of the table at a time. */
#include "guest.h"

enum { LENGTH = 1500, ROUNDS = 4 };

static unsigned char first[LENGTH], second[LENGTH];
static unsigned short row[LENGTH + 1];

static u32 longest(void)
{
    for (u32 j = 0; j <= LENGTH; j++)
        row[j] = 0;
    for (u32 i = 0; i < LENGTH; i++) {
        unsigned short diagonal = 0;
        for (u32 j = 0; j < LENGTH; j++) {
            unsigned short above = row[j + 1];
            if (first[i] == second[j])
                row[j + 1] = (unsigned short)(diagonal + 1);
            else if (row[j] > above)
                row[j + 1] = row[j];
            diagonal = above;
        }
    }
    return row[LENGTH];
}

int main(void)
{
    u32 state = 7, sum = 0;
    for (u32 round = 0; round < ROUNDS; round++) {
        for (u32 i = 0; i < LENGTH; i++) {
            first[i] = (unsigned char)('a' + next_random(&state) % 4);
            second[i] = (unsigned char)('a' + next_random(&state) % 4);
        }
        sum += longest();
    }
    print_number(sum);
    return 0;
}
