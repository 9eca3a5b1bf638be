/* What a test program finds with a C library: variables of a thread with their first values, more of them than fit a small area,
   functions that run before and after main, and the functions that it links against. It prints a line for each that is not as it has
   to be, and how many are. Its input says how it ends: by `assert`, `abort`, `exit` and a status, `kill` and a signal, or without any of
   these words by the answer of main. */
#include <assert.h>
#include <errno.h>
#include <signal.h>
#include <stdint.h>
#include <stdio.h>
#include <stdlib.h>
#include <string.h>
#include <sys/time.h>
#include <time.h>
#include <unistd.h>

static unsigned checks, wrong;

static void check(const char *what, int holds)
{
    checks++;
    if (!holds) {
        wrong++;
        printf("wrong: %s\n", what);
    }
}

static _Thread_local int first_value = 42;
static _Thread_local _Alignas(64) int aligned = 7;
static _Thread_local char many[3000];
static int behind[256] = {1, 2, 3};    /* what would be written over if the area were too small */
static char also_behind[4096];

static int made;

static void before_all(void) { made = 1; }
__attribute__((section(".preinit_array"), used)) static void (*const before_all_others)(void) = before_all;
__attribute__((constructor)) static void before_main(void) { made = made * 10 + 2; }
__attribute__((destructor)) static void at_the_very_end(void) { printf("%u checks, %u wrong\n", checks, wrong); }
static void at_the_end(void) { check("atexit", made == 12); }

static void check_variables(void)
{
    check("the first value of a variable of a thread", first_value == 42 && aligned == 7);
    volatile uintptr_t place = (uintptr_t)&aligned;
    check("its alignment", place % 64 == 0);
    memset(many, 1, sizeof many);
    unsigned sum = 0;
    for (unsigned at = 0; at < sizeof also_behind; at++)
        sum += also_behind[at];
    check("what lies behind the variables of a thread", sum == 0 && behind[0] + behind[1] + behind[2] == 6 && behind[3] == 0);
    check("errno", errno == 0);
}

static void check_functions(void)
{
    int unsown = rand();
    srand(1);
    check("rand", rand() == unsown);
    struct timeval now;
    errno = 0;
    check("gettimeofday", gettimeofday(&now, NULL) == -1 && errno == ENOSYS);
    check("time and clock", time(NULL) == (time_t)-1 && clock() == (clock_t)-1);
    check("fopen", fopen("nothing", "r") == NULL);
    check("isatty", !isatty(0) && !isatty(1));
    check("getpid", getpid() > 0 && kill(getpid(), 0) == 0 && kill(getpid() + 1, SIGTERM) == -1);
    void *bytes = malloc(100000);
    check("malloc", bytes != NULL && realloc(bytes, 200000) != NULL);
    volatile size_t too_many = (size_t)-4096;
    check("malloc of more than there is", malloc(too_many) == NULL && errno == ENOMEM);
    char text[40];
    check("snprintf", snprintf(text, sizeof text, "%.3f %5d|%-4s|", 1.5, -7, "ab") == 17 && strcmp(text, "1.500    -7|ab  |") == 0);
    check("strtod", strtod("2.5e3", NULL) == 2500.0);
}

int main(void)
{
    check("constructors", made == 12);
    check_variables();
    check_functions();
    atexit(at_the_end);
    char word[12];
    int number = 0;
    int found = scanf("%11s %d", word, &number);
    if (found >= 1 && strcmp(word, "assert") == 0)
        assert(found == 0);
    if (found >= 1 && strcmp(word, "abort") == 0)
        abort();
    if (found == 2 && strcmp(word, "exit") == 0)
        exit(number);
    if (found == 2 && strcmp(word, "kill") == 0)
        kill(getpid(), number);
    return wrong != 0;
}
