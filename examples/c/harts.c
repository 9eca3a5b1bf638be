/* Harts with a C library: three harts and main ask for memory, give it back and write lines, and each has variables of its own. */
#include <errno.h>
#include <stdint.h>
#include <stdio.h>
#include <stdlib.h>
#include <string.h>
#include "paged.h"

enum { HARTS = 3, ROUNDS = 40, HELD = 4, STACK = 16384 };

static volatile unsigned begun, done;
static unsigned wrong[HARTS + 1];
static _Thread_local unsigned count = 100, nothing;
static _Thread_local _Alignas(64) unsigned aligned = 7;

/* Memory that is filled, and looked at once others have asked for theirs. */
static unsigned use(char **held, unsigned *lengths, unsigned at, unsigned self, unsigned round)
{
    unsigned bad = 0;
    for (unsigned byte = 0; held[at] != NULL && byte < lengths[at]; byte++)
        bad += held[at][byte] != (char)('a' + self);
    free(held[at]);
    lengths[at] = 8 + 4 * self + round % 8;
    held[at] = malloc(lengths[at]);
    if (held[at] == NULL)
        return bad + 1;
    memset(held[at], 'a' + (int)self, lengths[at]);
    return bad;
}

static void work(unsigned self)
{
    char *held[HELD] = {NULL};
    volatile uintptr_t place = (uintptr_t)&aligned;
    unsigned lengths[HELD], bad = count != 100 || nothing != 0 || aligned != 7 || place % 64 != 0;
    errno = (int)self;
    add_shared(&begun, 1);
    while (begun <= HARTS)    /* so that all ask at the same time */
        ;
    for (unsigned round = 0; round < ROUNDS; round++) {
        bad += use(held, lengths, round % HELD, self, round);
        if (round % 20 == 0)
            printf("%c", 'A' + (int)self);
        count++;
        nothing++;
    }
    bad += errno != (int)self || nothing != ROUNDS;
    printf(" hart %u: %u rounds\n", self, count - 100);
    wrong[self] = bad;
}

int hart_main(void *argument)
{
    work((unsigned)(uintptr_t)argument);
    add_shared(&done, 1);
    return 0;
}

int main(void)
{
    for (uintptr_t hart = 1; hart <= HARTS; hart++) {
        char *stack = malloc(STACK);
        if (stack == NULL)
            return 2;
        memset(stack, 0x55, STACK);
        if (paged_spawn(stack + STACK - 16 * hart, (void *)hart) < 0)
            return 3;
    }
    work(0);
    while (done < HARTS)
        paged_yield();
    unsigned all = 0;
    for (unsigned hart = 0; hart <= HARTS; hart++)
        all += wrong[hart];
    printf("%u wrong\n", all);
    return all != 0;
}
