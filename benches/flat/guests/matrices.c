/* Products of square matrices of whole numbers: loads along rows and down columns, and multiplication. */
#include "guest.h"

enum { SIDE = 96, ROUNDS = 14 };

static u32 left[SIDE][SIDE], right[SIDE][SIDE], product[SIDE][SIDE];

static void multiply(void)
{
    for (u32 i = 0; i < SIDE; i++) {
        for (u32 j = 0; j < SIDE; j++) {
            u32 sum = 0;
            for (u32 k = 0; k < SIDE; k++)
                sum += left[i][k] * right[k][j];
            product[i][j] = sum;
        }
    }
}

int main(void)
{
    u32 state = 1, sum = 0;
    for (u32 i = 0; i < SIDE; i++) {
        for (u32 j = 0; j < SIDE; j++) {
            left[i][j] = next_random(&state);
            right[i][j] = next_random(&state);
        }
    }
    for (u32 round = 0; round < ROUNDS; round++) {
        multiply();
        for (u32 i = 0; i < SIDE; i++) {
            for (u32 j = 0; j < SIDE; j++)
                left[i][j] ^= product[i][j];
        }
        sum += product[round][SIDE - 1 - round];
    }
    print_number(sum);
    return 0;
}
