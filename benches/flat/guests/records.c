/* Records, strings and calls in the manner of Dhrystone: small functions, structures that are copied, strings that are
   compared, a few branches each. */
#include "guest.h"

enum { ROUNDS = 220000, NAME = 31 };

enum colour { RED, GREEN, BLUE, YELLOW };

struct record {
    struct record *next;
    enum colour colour;
    int number;
    char name[NAME];
};

static struct record first, second;
static int table[50], grid[50][50];
static int total;
static char letter;

static __attribute__((noinline)) void copy_text(char *to, const char *from)
{
    while ((*to++ = *from++) != '\0')
        ;
}

static __attribute__((noinline)) int compare_texts(const char *a, const char *b)
{
    while (*a != '\0' && *a == *b) {
        a++;
        b++;
    }
    return *a - *b;
}

static __attribute__((noinline)) enum colour after(enum colour colour)
{
    switch (colour) {
    case RED:
        return total > 100 ? GREEN : BLUE;
    case GREEN:
        return YELLOW;
    case BLUE:
        return RED;
    default:
        return GREEN;
    }
}

static __attribute__((noinline)) void copy_record(struct record *to, const struct record *from)
{
    to->next = from->next;
    to->colour = from->colour;
    to->number = from->number;
    for (u32 i = 0; i < NAME; i++)
        to->name[i] = from->name[i];
}

static __attribute__((noinline)) void advance(struct record *record)
{
    struct record *next = record->next;
    copy_record(next, record);
    next->next = record;
    next->colour = after(next->colour);
    next->number += 10;
    total += next->number & 15;
}

static __attribute__((noinline)) void fill(int *line, int (*lines)[50], int column, int value)
{
    int place = column + 5;
    line[place] = value;
    line[place + 1] = line[place];
    for (int i = place; i <= place + 1; i++)
        lines[place][i] = place;
    lines[place][place - 1]++;
}

int main(void)
{
    u32 sum = 0;
    first.next = &second;
    first.number = 40;
    copy_text(first.name, "SOME NAME OF THIRTY LETTERS 1");
    for (int round = 0; round < ROUNDS; round++) {
        char name[NAME];
        copy_text(name, round % 3 == 0 ? "SOME NAME OF THIRTY LETTERS 2" : "SOME NAME OF THIRTY LETTERS 1");
        if (compare_texts(name, first.name) == 0)
            letter = (char)('A' + round % 26);
        fill(table, grid, round % 40, round);
        advance(&first);
        sum += (u32)second.colour + (u32)letter + (u32)table[round % 50] + (u32)(total % (round + 1));
    }
    print_number(sum);
    return 0;
}
