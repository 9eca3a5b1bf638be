/* A small malloc over the break of paged. What is given back is kept in a list and given out again where it is large enough;
   where nothing is, memory is taken behind all that was given out, and the break moves up for it, page by page. What is given
   out begins at a multiple of 16, as a stack has to end at one. For one hart at a time. */
#ifndef MALLOC_H
#define MALLOC_H

#include "paged.h"

struct block {
    _Alignas(16) unsigned size; /* of the bytes behind this header */
    struct block *next;
};

static struct block *given_back;
static unsigned long unused, end_of_memory;

static inline void *malloc(unsigned size)
{
    if (size > 0x10000000)
        return 0;
    size = (size + 15) & ~15u;
    for (struct block **at = &given_back; *at; at = &(*at)->next)
        if ((*at)->size >= size) {
            struct block *found = *at;
            *at = found->next;
            return found + 1;
        }
    if (unused == 0)
        unused = end_of_memory = paged_break(0); /* refused, as it is below the break: the answer is where it stands */
    unsigned long end = unused + sizeof(struct block) + size;
    if (end > end_of_memory) {
        unsigned long wanted = (end + 4095) & ~4095ul;
        if (paged_break(wanted) != wanted)
            return 0;
        end_of_memory = wanted;
    }
    struct block *made = (struct block *)unused;
    made->size = size;
    unused = end;
    return made + 1;
}

static inline void free(void *bytes)
{
    if (!bytes)
        return;
    struct block *block = (struct block *)bytes - 1;
    block->next = given_back;
    given_back = block;
}

#endif
