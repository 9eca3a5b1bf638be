/* What the guests of this benchmark share: a line of output with a number, and a generator of numbers. */
#ifndef GUEST_H
#define GUEST_H

typedef unsigned int u32;

/* Writes at most `length` bytes and answers how many it took: a call stops at a page's end. */
static inline long write_some(const char *bytes, u32 length)
{
    register long answer __asm__("a0") = 1;
    register const char *from __asm__("a1") = bytes;
    register u32 count __asm__("a2") = length;
    register long number __asm__("a7") = 64;
    __asm__ volatile("ecall" : "+r"(answer) : "r"(from), "r"(count), "r"(number) : "memory");
    return answer;
}

/* A number in decimal, and a line feed. */
static void print_number(u32 number)
{
    char digits[11];
    u32 at = sizeof digits;
    digits[--at] = '\n';
    do {
        digits[--at] = (char)('0' + number % 10);
        number /= 10;
    } while (number > 0);
    while (at < sizeof digits)
        at += (u32)write_some(digits + at, sizeof digits - at);
}

/* The next number of a linear congruential generator: its upper bits are the good ones. */
static inline u32 next_random(u32 *state)
{
    *state = *state * 1664525 + 1013904223;
    return *state >> 8;
}

#endif
