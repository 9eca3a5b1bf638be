/* A guest of two files and a header for tests/test-profile: code that is inlined, functions that call themselves and each other, and two functions of
   one name. It was built with debug information of DWARF 4 and 5, in the repository's folder:

   c=examples/c
   for version in 4 5; do
       riscv64-unknown-elf-gcc -march=rv32im -mabi=ilp32 -O2 -g -gdwarf-$version -ffreestanding -nostartfiles -nostdlib -static \
           -ffile-prefix-map=$PWD=/sources -Wa,--debug-prefix-map=$PWD=/sources -o tests/parts/lines$version.elf \
           -I$c $c/crt0.S tests/parts/lines.c tests/parts/lines_others.c -lgcc
   done */
#include "lines.h"
#include "paged.h"

static unsigned table[64];

__attribute__((noinline)) static unsigned part(unsigned value)
{
    return mixed(value) + 1;
}

__attribute__((noinline, optimize("no-optimize-sibling-calls"))) static unsigned fibonacci(unsigned count)
{
    if (count < 2)
        return count;
    return fibonacci(count - 1) + fibonacci(count - 2);
}

static unsigned is_odd(unsigned value);

__attribute__((noinline, optimize("no-optimize-sibling-calls"))) static unsigned is_even(unsigned value)
{
    return value == 0 ? 1 : is_odd(value - 1) ^ table[value] >> 31;
}

__attribute__((noinline, optimize("no-optimize-sibling-calls"))) static unsigned is_odd(unsigned value)
{
    return value == 0 ? 0 : is_even(value - 1) ^ table[value] >> 31;
}

__attribute__((noinline)) static void fill(void)
{
    for (unsigned round = 0; round < 40; round++)
        for (unsigned place = 0; place < 64; place++)
            table[place] = (table[place] + place * round) & 0xFFFF;
}

int main(void)
{
    fill();
    unsigned sum = fibonacci(9) + is_even(20) + others(12);
    for (unsigned count = 0; count < 5; count++)
        sum += part(table[count]);
    print_number(sum);
    print("\n");
    return 0;
}
