/* Counts the words of the input: how many there are, how many of them differ, and which ones stand most often.
   The text and the words are kept in memory from malloc. Two harts count together: a number that they share tells which word is
   to be counted next, and each takes the next one by an atomic addition. */
#include "malloc.h"

enum { SHOWN = 8, STACK = 4096 };

struct word {
    const char *letters;
    unsigned length;
    unsigned count;
};

static struct word *words;
static unsigned all, different;
static volatile unsigned next_word, letters, harts_done;

static char *longer(char *text, unsigned length, unsigned room)
{
    char *place = malloc(room);
    volatile char *to = place; /* so that gcc asks for no memcpy, which is not here */
    for (unsigned at = 0; to && at < length; at++)
        to[at] = text[at];
    free(text);
    return place;
}

/* The whole input, in memory that doubles as it comes. */
static char *read_input(unsigned *length)
{
    unsigned room = 64;
    char *text = malloc(room);
    *length = 0;
    while (text) {
        long taken = paged_read(text + *length, room - *length);
        if (taken <= 0)
            return text;
        *length += (unsigned)taken;
        if (*length == room)
            text = longer(text, *length, room *= 2);
    }
    return 0;
}

static int is_letter(char c)
{
    return c >= 'a' && c <= 'z';
}

static int compare(const struct word *one, const struct word *other)
{
    for (unsigned at = 0; at < one->length && at < other->length; at++)
        if (one->letters[at] != other->letters[at])
            return one->letters[at] - other->letters[at];
    return (int)one->length - (int)other->length;
}

/* Finds the words of the text, in small letters from now on. */
static void find_words(char *text, unsigned length)
{
    for (unsigned at = 0; at < length; at++)
        if (text[at] >= 'A' && text[at] <= 'Z')
            text[at] += 'a' - 'A';
    for (unsigned at = 0; at < length; at++) {
        if (!is_letter(text[at]))
            continue;
        struct word *word = &words[all++];
        word->letters = text + at;
        while (at < length && is_letter(text[at]))
            at++;
        word->length = (unsigned)(text + at - word->letters);
    }
}

/* What both harts do: a word's count is how often it stands from its first place on, and 0 at any later place. */
static void count_words(void)
{
    unsigned mine;
    while ((mine = add_shared(&next_word, 1)) < all) {
        unsigned count = 0;
        for (unsigned at = 0; at < all; at++) {
            if (compare(&words[at], &words[mine]) != 0)
                continue;
            if (at < mine)
                break;
            count++;
        }
        words[mine].count = count;
        add_shared(&letters, words[mine].length);
    }
    add_shared(&harts_done, 1);
}

unsigned hart_main(void *argument)
{
    (void)argument;
    count_words();
    return 0;
}

static int stands_before(const struct word *one, const struct word *other)
{
    return one->count != other->count ? one->count > other->count : compare(one, other) < 0;
}

static void show_most_frequent(void)
{
    for (unsigned shown = 0; shown < SHOWN && shown < different; shown++) {
        struct word *first = &words[0];
        for (unsigned at = 1; at < all; at++)
            if (stands_before(&words[at], first))
                first = &words[at];
        print_number(first->count);
        print(" ");
        write_all(first->letters, first->length);
        print("\n");
        first->count = 0;
    }
}

int main(void)
{
    unsigned length;
    char *text = read_input(&length);
    words = malloc((length / 2 + 1) * sizeof *words); /* a word takes two bytes at least, with what parts it from the next */
    char *stack = malloc(STACK);
    if (!text || !words || !stack) {
        print("no memory\n");
        return 1;
    }
    find_words(text, length);
    unsigned harts = paged_spawn(stack + STACK, 0) < 0 ? 1 : 2;
    count_words();
    while (harts_done < harts)
        paged_yield();
    for (unsigned at = 0; at < all; at++)
        different += words[at].count > 0;
    print_number(all);
    print(" words, ");
    print_number(different);
    print(" different, ");
    print_number(letters);
    print(" letters\n");
    show_most_frequent();
    return 0;
}
