/* A heap sort and a quicksort of the same numbers: branches that can't be foreseen, loads and stores all over. */
#include "guest.h"

enum { COUNT = 20000, ROUNDS = 14 };

static u32 numbers[COUNT];

static void sift(u32 *heap, u32 root, u32 count)
{
    u32 value = heap[root];
    for (;;) {
        u32 child = 2 * root + 1;
        if (child >= count)
            break;
        if (child + 1 < count && heap[child + 1] > heap[child])
            child++;
        if (heap[child] <= value)
            break;
        heap[root] = heap[child];
        root = child;
    }
    heap[root] = value;
}

static void sort_by_heap(u32 *heap, u32 count)
{
    for (u32 i = count / 2; i > 0; i--)
        sift(heap, i - 1, count);
    for (u32 end = count - 1; end > 0; end--) {
        u32 most = heap[0];
        heap[0] = heap[end];
        heap[end] = most;
        sift(heap, 0, end);
    }
}

static void sort_by_parts(u32 *from, u32 *to)
{
    while (from < to) {
        u32 pivot = from[(to - from) / 2];
        u32 *low = from, *high = to;
        while (low <= high) {
            while (*low < pivot)
                low++;
            while (*high > pivot)
                high--;
            if (low <= high) {
                u32 value = *low;
                *low++ = *high;
                *high-- = value;
            }
        }
        sort_by_parts(from, high);
        from = low;
    }
}

static void fill(u32 *state)
{
    for (u32 i = 0; i < COUNT; i++)
        numbers[i] = next_random(state);
}

int main(void)
{
    u32 sum = 0;
    for (u32 round = 0; round < ROUNDS; round++) {
        u32 state = round;
        fill(&state);
        sort_by_heap(numbers, COUNT);
        sum += numbers[COUNT / 2];
        fill(&state);
        sort_by_parts(numbers, numbers + COUNT - 1);
        sum ^= numbers[COUNT / 3];
    }
    print_number(sum);
    return 0;
}
