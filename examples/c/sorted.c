/* Reads lines, and prints them sorted, each with its length and the mean of the lengths behind them: with the C library's malloc, qsort,
   strcmp and printf. */
#include <stdio.h>
#include <stdlib.h>
#include <string.h>

static int by_text(const void *left, const void *right)
{
    return strcmp(*(char *const *)left, *(char *const *)right);
}

int main(void)
{
    char **lines = NULL;
    size_t count = 0, room = 0, letters = 0;
    char text[200];
    while (fgets(text, sizeof text, stdin) != NULL) {
        text[strcspn(text, "\n")] = 0;
        if (count == room) {
            room = room == 0 ? 8 : 2 * room;
            lines = realloc(lines, room * sizeof *lines);
            if (lines == NULL)
                return 1;
        }
        lines[count] = strdup(text);
        if (lines[count] == NULL)
            return 1;
        letters += strlen(text);
        count++;
    }
    qsort(lines, count, sizeof *lines, by_text);
    for (size_t k = 0; k < count; k++)
        printf("%3zu %s\n", strlen(lines[k]), lines[k]);
    printf("%zu lines, %.2f letters in the mean\n", count, count == 0 ? 0.0 : (double)letters / count);
    return 0;
}
