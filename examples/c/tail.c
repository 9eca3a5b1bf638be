/* Prints the last lines of the input, ten or as many as its word says. The input is kept on the stack, which is larger than the usual one. */
#include "paged.h"

enum { MOST = 1 << 19 };

GUEST_WORDS(64);
GUEST_STACK(MOST + 4096);

/* The number that decimal digits write, or -1. */
static long number_of(const char *digits)
{
    long number = 0;
    if (*digits == '\0')
        return -1;
    for (; *digits != '\0'; digits++) {
        if (*digits < '0' || *digits > '9' || number > 100000000)
            return -1;
        number = number * 10 + (*digits - '0');
    }
    return number;
}

static unsigned long read_all(char *text)
{
    unsigned long length = 0;
    long taken;
    while ((taken = paged_read(text + length, MOST - length)) > 0)
        length += (unsigned long)taken;
    return length;
}

/* Where the last lines begin. A line ends with a line feed; the last one may do without. */
static unsigned long last_lines(const char *text, unsigned long length, long lines)
{
    unsigned long at = length;
    while (at > 0 && lines > 0) {
        at--;
        while (at > 0 && text[at - 1] != '\n')
            at--;
        lines--;
    }
    return at;
}

int main(int argc, char **argv)
{
    char text[MOST];
    long lines = argc > 1 ? number_of(argv[1]) : 10;
    if (argc > 2 || lines < 0) {
        print("tail: a number of lines is wanted\n");
        return 2;
    }
    unsigned long length = read_all(text);
    unsigned long begin = last_lines(text, length, lines);
    write_all(text + begin, length - begin);
    return 0;
}
