/* Primes by Eratosthenes: stores of bytes with a stride. */
#include "guest.h"

enum { BOUND = 200000, ROUNDS = 40 };

static unsigned char composite[BOUND];

static u32 primes_below(u32 bound)
{
    for (u32 n = 0; n < bound; n++)
        composite[n] = 0;
    u32 primes = 0;
    for (u32 n = 2; n < bound; n++) {
        if (composite[n])
            continue;
        primes++;
        for (u32 multiple = n + n; multiple < bound; multiple += n)
            composite[multiple] = 1;
    }
    return primes;
}

int main(void)
{
    u32 sum = 0;
    for (u32 round = 0; round < ROUNDS; round++)
        sum += primes_below(BOUND - round);
    print_number(sum);
    return 0;
}
