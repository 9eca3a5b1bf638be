/* A C interpreter over one flat array with a byte of rights a page, matching on the word itself. */
#include <stdint.h>
#include <stdio.h>
#include <stdlib.h>
#include <string.h>
#include <sys/mman.h>

enum { READ = 1, WRITE = 2, EXECUTE = 4 };

#define TOP 0x80000000u /* nothing is mapped from here on */

static uint8_t *bytes, rights[1 << 20];
static uint32_t x[32], entry, pc_of_end, value_of_trap;
static char *output;
static size_t written, room;

/* How a run ends, as a number below 0, or the cause of a trap; the value goes beside it. */
enum { EXITED = -1 };

static int trap(int cause, uint32_t pc, uint32_t value)
{
    pc_of_end = pc;
    value_of_trap = value;
    return cause;
}

static int may(uint32_t address, int right)
{
    return rights[address >> 12] & right;
}

static uint32_t word_at(const uint8_t *at)
{
    uint32_t word;
    memcpy(&word, at, 4);
    return word;
}

/* Answers 0 where it goes on and 1 where the process has ended. */
static int call(void)
{
    if (x[17] == 94)
        return 1;
    if (x[17] != 64) {
        x[10] = (uint32_t)-38;
        return 0;
    }
    uint32_t address = x[11], count = 4096 - (address & 4095);
    if (x[12] < count)
        count = x[12];
    if (count > 0 && !may(address, READ)) {
        x[10] = (uint32_t)-14;
        return 0;
    }
    if (written + count > room) {
        room = 2 * room + count;
        output = realloc(output, room);
    }
    if (count > 0)
        memcpy(output + written, bytes + address, count);
    written += count;
    x[10] = count;
    return 0;
}

/* Each ends one turn or all of the loop in `run`, whose names they use. */
#define NEXT goto next
#define TRAP(cause, value) do { \
        *steps = step; \
        return trap(cause, pc, value); \
    } while (0)
#define SET(result) do { value = (result); goto set; } while (0)
#define JUMP(link, to) do { \
        uint32_t target = (to); \
        if (target % 4) \
            TRAP(0, target); \
        if ((link) != 0) \
            x[link] = pc + 4; \
        pc = target; \
        goto jumped; \
    } while (0)
#define LOAD(type) do { \
        type loaded; \
        uint32_t at = a + i; \
        if (at % sizeof loaded) \
            TRAP(4, at); \
        if (!may(at, READ)) \
            TRAP(13, at); \
        memcpy(&loaded, memory + at, sizeof loaded); \
        SET((uint32_t)loaded); \
    } while (0)
#define STORE(type) do { \
        type stored = (type)b; \
        if (at % sizeof stored) \
            TRAP(6, at); \
        if (!may(at, WRITE)) \
            TRAP(15, at); \
        memcpy(memory + at, &stored, sizeof stored); \
        NEXT; \
    } while (0)

static int run(uint64_t *steps)
{
    uint8_t *const memory = bytes;
    uint32_t pc = entry;
    for (uint64_t step = 1;; step++) {
        if (pc % 4)
            TRAP(0, pc);
        if (!may(pc, EXECUTE))
            TRAP(12, pc);
        uint32_t word = word_at(memory + pc), rd = word >> 7 & 31, kind = word >> 12 & 7, upper = word >> 25;
        uint32_t a = x[word >> 15 & 31], b = x[word >> 20 & 31], i = (uint32_t)((int32_t)word >> 20), value;
        switch (word & 127) {
        case 0x37: SET(word & 0xFFFFF000);
        case 0x17: SET(pc + (word & 0xFFFFF000));
        case 0x6F: {
            uint32_t sign = (uint32_t)((int32_t)word >> 31) << 20;
            JUMP(rd, pc + (sign | (word >> 12 & 0xFF) << 12 | (word >> 20 & 1) << 11 | (word >> 21 & 0x3FF) << 1));
        }
        case 0x67:
            if (kind != 0)
                TRAP(2, word);
            JUMP(rd, (a + i) & ~1u);
        case 0x63: {
            int taken;
            switch (kind) {
            case 0: taken = a == b; break;
            case 1: taken = a != b; break;
            case 4: taken = (int32_t)a < (int32_t)b; break;
            case 5: taken = (int32_t)a >= (int32_t)b; break;
            case 6: taken = a < b; break;
            case 7: taken = a >= b; break;
            default: TRAP(2, word);
            }
            if (!taken)
                NEXT;
            uint32_t sign = (uint32_t)((int32_t)word >> 31) << 12;
            JUMP(0, pc + (sign | (word >> 7 & 1) << 11 | (word >> 25 & 0x3F) << 5 | (word >> 8 & 15) << 1));
        }
        case 0x03:
            switch (kind) {
            case 0: LOAD(int8_t);
            case 1: LOAD(int16_t);
            case 2: LOAD(uint32_t);
            case 4: LOAD(uint8_t);
            case 5: LOAD(uint16_t);
            default: TRAP(2, word);
            }
        case 0x23: {
            uint32_t at = a + ((uint32_t)((int32_t)word >> 25) << 5 | rd);
            switch (kind) {
            case 0: STORE(uint8_t);
            case 1: STORE(uint16_t);
            case 2: STORE(uint32_t);
            default: TRAP(2, word);
            }
        }
        case 0x13:
            switch (kind) {
            case 0: SET(a + i);
            case 1: if (upper != 0) TRAP(2, word); SET(a << (i & 31));
            case 2: SET((int32_t)a < (int32_t)i);
            case 3: SET(a < i);
            case 4: SET(a ^ i);
            case 5:
                if (upper == 0) SET(a >> (i & 31));
                if (upper == 0x20) SET((uint32_t)((int32_t)a >> (i & 31)));
                TRAP(2, word);
            case 6: SET(a | i);
            default: SET(a & i);
            }
        case 0x33:
            if (upper == 0)
                switch (kind) {
                case 0: SET(a + b);
                case 1: SET(a << (b & 31));
                case 2: SET((int32_t)a < (int32_t)b);
                case 3: SET(a < b);
                case 4: SET(a ^ b);
                case 5: SET(a >> (b & 31));
                case 6: SET(a | b);
                default: SET(a & b);
                }
            if (upper == 1)
                switch (kind) {
                case 0: SET(a * b);
                case 1: SET((uint32_t)((int64_t)(int32_t)a * (int32_t)b >> 32));
                case 2: SET((uint32_t)((int64_t)(int32_t)a * b >> 32));
                case 3: SET((uint32_t)((uint64_t)a * b >> 32));
                case 4: SET(b == 0 ? ~0u : b == ~0u ? -a : (uint32_t)((int32_t)a / (int32_t)b));
                case 5: SET(b == 0 ? ~0u : a / b);
                case 6: SET(b == 0 ? a : b == ~0u ? 0 : (uint32_t)((int32_t)a % (int32_t)b));
                default: SET(b == 0 ? a : a % b);
                }
            if (upper == 0x20 && kind == 0)
                SET(a - b);
            if (upper == 0x20 && kind == 5)
                SET((uint32_t)((int32_t)a >> (b & 31)));
            TRAP(2, word);
        case 0x0F:
            if (kind == 0)
                NEXT;
            TRAP(2, word);
        case 0x73:
            if (word == 0x00100073)
                TRAP(3, pc);
            if (word != 0x73)
                TRAP(2, word);
            if (call()) {
                *steps = step;
                return EXITED;
            }
            NEXT;
        default:
            TRAP(2, word);
        }
    set:
        if (rd != 0)
            x[rd] = value;
    next:
        pc += 4;
    jumped:;
    }
}

static void load(const uint8_t *file)
{
    entry = word_at(file + 24);
    const uint8_t *header = file + word_at(file + 28);
    for (int left = file[44]; left > 0; left--, header += 32) {
        if (word_at(header) != 1)
            continue;
        uint32_t flags = word_at(header + 24), to = word_at(header + 8), size = word_at(header + 20);
        memcpy(bytes + to, file + word_at(header + 4), word_at(header + 16));
        for (uint32_t page = to >> 12; page < (to + size + 4095) >> 12; page++)
            rights[page] |= (flags & 4 ? READ : 0) | (flags & 2 ? WRITE : 0) | (flags & 1 ? EXECUTE : 0);
    }
    memset(rights + 0x7FFC0, READ | WRITE, 64);
    x[2] = 0x7FFFFFF0;
}

int main(int count, char **words)
{
    static uint8_t file[1 << 20];
    FILE *in = count > 1 ? fopen(words[1], "rb") : NULL;
    if (!in || fread(file, 1, sizeof file, in) == 0)
        return 2;
    bytes = mmap(NULL, TOP, PROT_READ | PROT_WRITE, MAP_PRIVATE | MAP_ANONYMOUS | MAP_NORESERVE, -1, 0);
    if (bytes == MAP_FAILED)
        return 2;
    load(file);
    uint64_t steps = 0;
    int end = run(&steps);
    printf("process 0 output %zu\n", written);
    fwrite(output, 1, written, stdout);
    if (end == EXITED)
        printf("\nprocess 0 exited %u after %llu steps\n", x[10], (unsigned long long)steps);
    else
        printf("\nprocess 0 trap %d hart 0 pc 0x%08X value 0x%08X after %llu steps\n", end, pc_of_end, value_of_trap,
            (unsigned long long)steps);
    return 0;
}
