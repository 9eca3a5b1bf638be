/* The calls of paged that the examples use: the call's number in a7, operands from a0 on, the answer in a0. */
#ifndef PAGED_H
#define PAGED_H

/* Room for words: so many bytes, which `guest run IMAGE WORD..` fills with argc, argv and the words. Written once, outside of functions.
   Build with -DWITH_WORDS=1 and without -s. The object is in .data, so that the file has its bytes. */
#define GUEST_WORDS(bytes) \
    _Static_assert(WITH_WORDS, "build with -DWITH_WORDS=1"); \
    __attribute__((section(".data"), aligned(4), used)) char __guest_words[(bytes) < 8 ? 8 : (bytes)]

/* A stack of so many bytes for the first hart, in place of the usual one. Written once, outside of functions; build with -DWITH_WORDS=1. */
#define GUEST_STACK(bytes) \
    _Static_assert(WITH_WORDS, "build with -DWITH_WORDS=1"); \
    __attribute__((aligned(16))) char __guest_stack[((bytes) + 15) / 16 * 16]; \
    __attribute__((used)) char *const __guest_stack_end = __guest_stack + sizeof __guest_stack

/* Writes at most `length` bytes and answers how many it took: a call stops at a page's end, so it may be fewer. */
static inline long paged_write(const char *bytes, unsigned long length)
{
    register long answer __asm__("a0") = 1;
    register const char *from __asm__("a1") = bytes;
    register unsigned long count __asm__("a2") = length;
    register long number __asm__("a7") = 64;
    __asm__ volatile("ecall" : "+r"(answer) : "r"(from), "r"(count), "r"(number) : "memory");
    return answer;
}

/* Writes all of them, by as many calls as it takes. */
static inline void write_all(const char *bytes, unsigned long length)
{
    while (length > 0) {
        long taken = paged_write(bytes, length);
        if (taken < 0)
            return;
        bytes += taken;
        length -= (unsigned long)taken;
    }
}

/* Reads at most `length` bytes of the input and answers how many there were: a call stops at a page's end, so it may be fewer;
   0 where none is left. */
static inline long paged_read(char *bytes, unsigned long length)
{
    register long answer __asm__("a0") = 0;
    register char *to __asm__("a1") = bytes;
    register unsigned long count __asm__("a2") = length;
    register long number __asm__("a7") = 63;
    __asm__ volatile("ecall" : "+r"(answer) : "r"(to), "r"(count), "r"(number) : "memory");
    return answer;
}

/* Asks for memory up to `end` and answers where it ends then: there, or where it ended before if so much can not be had. */
static inline unsigned long paged_break(unsigned long end)
{
    register unsigned long answer __asm__("a0") = end;
    register long number __asm__("a7") = 214;
    __asm__ volatile("ecall" : "+r"(answer) : "r"(number) : "memory");
    return answer;
}

/* Lets the other harts run. */
static inline void paged_yield(void)
{
    register long answer __asm__("a0");
    register long number __asm__("a7") = 124;
    __asm__ volatile("ecall" : "=r"(answer) : "r"(number) : "memory");
}

/* Starts a hart in hart_main of the program, on the stack that ends at `stack_end`; needs hart.S. Answers its number, or less
   than 0 where eight were started already. */
static inline long paged_spawn(void *stack_end, void *argument)
{
    extern void hart_start(void);
    register long answer __asm__("a0") = (long)hart_start;
    register void *stack __asm__("a1") = stack_end;
    register void *given __asm__("a2") = argument;
    register long number __asm__("a7") = 1024;
    __asm__ volatile("ecall" : "+r"(answer) : "r"(stack), "r"(given), "r"(number) : "memory");
    return answer;
}

/* Adds to a word that several harts share, in one step, and answers what it was before. The instruction alone is of the
   extension A, so that the program is built for rv32im and with its library. */
static inline unsigned add_shared(volatile unsigned *word, unsigned amount)
{
    unsigned before;
    __asm__ volatile(".option push\n\t.option arch, +a\n\tamoadd.w %0, %2, (%1)\n\t.option pop"
                     : "=r"(before) : "r"(word), "r"(amount) : "memory");
    return before;
}

static inline void print(const char *text)
{
    unsigned long length = 0;
    while (text[length] != '\0')
        length++;
    write_all(text, length);
}

static inline void print_number(unsigned number)
{
    char digits[10];
    unsigned at = sizeof digits;
    do {
        digits[--at] = (char)('0' + number % 10);
        number /= 10;
    } while (number > 0);
    write_all(digits + at, sizeof digits - at);
}

#endif
