/* How fast C can be under the rules that `paged flat` keeps: each word is fetched from the guest's memory and told apart when it is run,
 * with no cache of decoded words; pages lie anywhere and have rights of their own; each access that is misaligned or not allowed traps,
 * and so does each word outside the table; steps are counted one by one.
 *
 * What makes it fast: a word's opcode and funct3 are the place in a table of labels that each instruction jumps by itself; pc and
 * registers are locals of one function; the page that is run is at hand until pc leaves it; and a load or a store compares its address with
 * one of 64 pages that were found before. It takes gcc, for labels as values. */
#include <stdint.h>
#include <stdio.h>
#include <stdlib.h>
#include <string.h>

enum { READ = 1, WRITE = 2, EXECUTE = 4 };
enum { PAGE = 4096, PAGES_OF_LEAF = 1024, REMEMBERED = 64 };
enum { FORMS = 0x7080 };    /* numbers that opcode and funct3 can make, where they stand in a word */

/* How a run pauses or ends: at a call, or with the cause of a trap. */
enum { CALLS = -1, TARGET_MISALIGNED = 0, ILLEGAL = 2, BREAKPOINT = 3, LOAD_MISALIGNED = 4, STORE_MISALIGNED = 6,
       FETCH_FAULT = 12, LOAD_FAULT = 13, STORE_FAULT = 15 };

struct page { uint8_t rights, *bytes; };

/* A page that was found: its first address, and where its bytes are, less that address. No page begins at 4. */
struct found { uint32_t start; uintptr_t past; };

struct hart { uint32_t pc, x[32], value; uint64_t steps; };

static struct page *leaves[1024];
static struct found loaded[REMEMBERED], stored[REMEMBERED];
static char *output;
static size_t written, room;

#define RARELY(test) __builtin_expect((test), 0)

static uint32_t word_at(const uint8_t *at)
{
    uint32_t word;
    memcpy(&word, at, 4);
    return word;
}

static struct page *page_of(uint32_t address)
{
    struct page *leaf = leaves[address >> 22];
    return leaf ? &leaf[address / PAGE % PAGES_OF_LEAF] : NULL;
}

/* The page of an address, which is made where there is none. */
static struct page *mapped(uint32_t address, int rights)
{
    if (!leaves[address >> 22])
        leaves[address >> 22] = calloc(PAGES_OF_LEAF, sizeof(struct page));
    struct page *page = page_of(address);
    if (!page->bytes)
        page->bytes = calloc(1, PAGE);
    page->rights |= rights;
    return page;
}

/* Where the bytes of an address are, less the address, or 0 where no page there has the right. */
static __attribute__((noinline)) uintptr_t look(uint32_t address, int right)
{
    struct page *page = page_of(address);
    if (!page || !(page->rights & right))
        return 0;
    struct found found = { address & -PAGE, (uintptr_t)page->bytes - (address & -PAGE) };
    if (right == READ)
        loaded[address / PAGE % REMEMBERED] = found;
    if (right == WRITE)
        stored[address / PAGE % REMEMBERED] = found;
    return found.past;
}

/* Runs a hart until it calls or traps, and tells which. The one that calls or traps is not counted. */
static int run(struct hart *hart)
{
    static const void *table[FORMS];
    if (!table[0]) {
        for (int form = 0; form < FORMS; form++)
            table[form] = &&illegal;
#define FORM(opcode, funct3, label) table[(opcode) | (funct3) << 12] = &&label
        for (int any = 0; any < 8; any++) {
            FORM(0x37, any, lui);
            FORM(0x17, any, auipc);
            FORM(0x6F, any, jal);
            FORM(0x73, any, system);
        }
        FORM(0x67, 0, jalr);
        FORM(0x0F, 0, fence);
        FORM(0x63, 0, beq), FORM(0x63, 1, bne), FORM(0x63, 4, blt), FORM(0x63, 5, bge), FORM(0x63, 6, bltu), FORM(0x63, 7, bgeu);
        FORM(0x03, 0, lb), FORM(0x03, 1, lh), FORM(0x03, 2, lw), FORM(0x03, 4, lbu), FORM(0x03, 5, lhu);
        FORM(0x23, 0, sb), FORM(0x23, 1, sh), FORM(0x23, 2, sw);
        FORM(0x13, 0, addi), FORM(0x13, 1, slli), FORM(0x13, 2, slti), FORM(0x13, 3, sltiu);
        FORM(0x13, 4, xori), FORM(0x13, 5, shift_right), FORM(0x13, 6, ori), FORM(0x13, 7, andi);
        FORM(0x33, 0, add_sub_mul), FORM(0x33, 1, sll_mulh), FORM(0x33, 2, slt_mulhsu), FORM(0x33, 3, sltu_mulhu);
        FORM(0x33, 4, xor_div), FORM(0x33, 5, shift_divu), FORM(0x33, 6, or_rem), FORM(0x33, 7, and_remu);
    }

    uint32_t x[32], pc = hart->pc, word = 0, at, target;
    uintptr_t code = 0, past;    /* `code`: where the bytes of the page that is run are, less its first address */
    uint64_t steps = hart->steps;
    int cause;
    memcpy(x, hart->x, sizeof x);

/* The registers that a word names: their numbers, times the size of a register, stand in the word but for a shift. */
#define NAMED(shift) (*(uint32_t *)((char *)x + (word >> (shift) & 0x7C)))
#define A NAMED(13)
#define B NAMED(18)
#define IMMEDIATE ((int32_t)word >> 20)
#define RUN_NEXT do { \
        word = *(uint32_t *)(code + pc); \
        goto *table[word & 0x707F]; \
    } while (0)
#define NEXT do { \
        steps++; \
        pc += 4; \
        if (RARELY(pc % PAGE == 0)) \
            goto other_page; \
        RUN_NEXT; \
    } while (0)
#define SET(result) do { \
        uint32_t result_ = (uint32_t)(result); \
        NAMED(5) = result_; \
        x[0] = 0; \
        NEXT; \
    } while (0)
#define JUMP(link, to) do { \
        target = (to); \
        if (RARELY(target % 4)) \
            goto misaligned_target; \
        if (link) { \
            NAMED(5) = pc + 4; \
            x[0] = 0; \
        } \
        steps++; \
        uint32_t from = pc; \
        pc = target; \
        if (RARELY((from ^ pc) / PAGE)) \
            goto other_page; \
        RUN_NEXT; \
    } while (0)
#define TRAP(cause_, value_) do { \
        cause = (cause_); \
        hart->value = (value_); \
        goto out; \
    } while (0)

    goto other_page;

other_page:
    code = look(pc, EXECUTE);
    if (!code)
        TRAP(FETCH_FAULT, pc);
    RUN_NEXT;

lui: SET(word & 0xFFFFF000);
auipc: SET(pc + (word & 0xFFFFF000));
fence: NEXT;
jal: JUMP(1, pc + (((int32_t)word >> 31 & -0x100000) | (word & 0xFF000) | (word >> 9 & 0x800) | (word >> 20 & 0x7FE)));
jalr: JUMP(1, (A + IMMEDIATE) & ~1u);

#define BRANCH(label, type, operator) label: \
    if ((type)A operator (type)B) \
        JUMP(0, pc + (((int32_t)word >> 31 & -0x1000) | (word << 4 & 0x800) | (word >> 20 & 0x7E0) | (word >> 7 & 0x1E))); \
    NEXT
    BRANCH(beq, uint32_t, ==);
    BRANCH(bne, uint32_t, !=);
    BRANCH(blt, int32_t, <);
    BRANCH(bge, int32_t, >=);
    BRANCH(bltu, uint32_t, <);
    BRANCH(bgeu, uint32_t, >=);

/* One comparison tells that the page was found before and that the address is aligned. */
#define REACH(pages, width, right, misaligned, fault) do { \
        struct found *found = &pages[at / PAGE % REMEMBERED]; \
        if (RARELY((at & (-PAGE | (width - 1))) != found->start)) { \
            if (at % width) \
                TRAP(misaligned, at); \
            if (!(past = look(at, right))) \
                TRAP(fault, at); \
        } else \
            past = found->past; \
    } while (0)
#define LOAD(label, type) label: \
    at = A + IMMEDIATE; \
    REACH(loaded, sizeof(type), READ, LOAD_MISALIGNED, LOAD_FAULT); \
    SET(*(type *)(past + at))
    LOAD(lb, int8_t);
    LOAD(lh, int16_t);
    LOAD(lw, uint32_t);
    LOAD(lbu, uint8_t);
    LOAD(lhu, uint16_t);
#define STORE(label, type) label: \
    at = A + ((IMMEDIATE & ~31) | (word >> 7 & 31)); \
    REACH(stored, sizeof(type), WRITE, STORE_MISALIGNED, STORE_FAULT); \
    *(type *)(past + at) = (type)B; \
    NEXT
    STORE(sb, uint8_t);
    STORE(sh, uint16_t);
    STORE(sw, uint32_t);

addi: SET(A + IMMEDIATE);
slti: SET((int32_t)A < IMMEDIATE);
sltiu: SET(A < (uint32_t)IMMEDIATE);
xori: SET(A ^ IMMEDIATE);
ori: SET(A | IMMEDIATE);
andi: SET(A & IMMEDIATE);
slli:
    if (word >> 25)
        goto illegal;
    SET(A << (word >> 20 & 31));
shift_right:
    if (word >> 25 == 0)
        SET(A >> (word >> 20 & 31));
    if (word >> 25 == 0x20)
        SET((int32_t)A >> (word >> 20 & 31));
    goto illegal;

#define UNSIGNED (uint64_t)
#define SIGNED (int64_t)(int32_t)
#define BY_FUNCT7(of_base, of_m) \
    if (word >> 25 == 0) \
        SET(of_base); \
    if (word >> 25 == 1) \
        SET(of_m); \
    goto illegal
#define EITHER(label, of_base, of_m) label: BY_FUNCT7(of_base, of_m)
#define ONE_OF(label, of_base, of_other, of_m) label: \
    if (word >> 25 == 0x20) \
        SET(of_other); \
    BY_FUNCT7(of_base, of_m)
    ONE_OF(add_sub_mul, A + B, A - B, A * B);
    EITHER(sll_mulh, A << (B & 31), SIGNED A * SIGNED B >> 32);
    EITHER(slt_mulhsu, (int32_t)A < (int32_t)B, SIGNED A * (int64_t)UNSIGNED B >> 32);
    EITHER(sltu_mulhu, A < B, UNSIGNED A * UNSIGNED B >> 32);
    EITHER(xor_div, A ^ B, B == 0 ? ~0u : B == ~0u ? -A : (uint32_t)((int32_t)A / (int32_t)B));
    ONE_OF(shift_divu, A >> (B & 31), (int32_t)A >> (B & 31), B == 0 ? ~0u : A / B);
    EITHER(or_rem, A | B, B == 0 ? A : B == ~0u ? 0 : (uint32_t)((int32_t)A % (int32_t)B));
    EITHER(and_remu, A & B, B == 0 ? A : A % B);

system:
    if (word == 0x00000073) {
        cause = CALLS;
        goto out;
    }
    if (word == 0x00100073)
        TRAP(BREAKPOINT, pc);
illegal:
    TRAP(ILLEGAL, word);
misaligned_target:
    TRAP(TARGET_MISALIGNED, target);
out:
    memcpy(hart->x, x, sizeof x);
    hart->pc = pc;
    hart->steps = steps;
    return cause;
}

/* What a call answers. */
static uint32_t served(const uint32_t *x)
{
    if (x[17] != 64)
        return (uint32_t)-38;
    uint32_t address = x[11], count = PAGE - address % PAGE;
    if (x[12] < count)
        count = x[12];
    if (count == 0)
        return 0;
    uintptr_t past = look(address, READ);
    if (!past)
        return (uint32_t)-14;
    if (written + count > room) {
        room = 2 * room + count;
        output = realloc(output, room);
    }
    memcpy(output + written, (const void *)(past + address), count);
    written += count;
    return count;
}

static void load(const uint8_t *file, struct hart *hart)
{
    hart->pc = word_at(file + 24);
    const uint8_t *header = file + word_at(file + 28);
    for (int left = file[44]; left > 0; left--, header += 32) {
        if (word_at(header) != 1)
            continue;
        uint32_t flags = word_at(header + 24), to = word_at(header + 8), size = word_at(header + 20);
        int rights = (flags & 4 ? READ : 0) | (flags & 2 ? WRITE : 0) | (flags & 1 ? EXECUTE : 0);
        for (uint32_t page = to & -PAGE; page < to + size; page += PAGE)
            mapped(page, rights);
        for (uint32_t k = 0; k < word_at(header + 16); k++)
            mapped(to + k, rights)->bytes[(to + k) % PAGE] = file[word_at(header + 4) + k];
    }
    for (uint32_t page = 0x7FFC0000; page < 0x80000000; page += PAGE)
        mapped(page, READ | WRITE);
    for (int k = 0; k < REMEMBERED; k++)
        loaded[k].start = stored[k].start = 4;
    hart->x[2] = 0x7FFFFFF0;
}

int main(int count, char **words)
{
    static uint8_t file[1 << 20];
    static struct hart hart;
    FILE *in = count > 1 ? fopen(words[1], "rb") : NULL;
    if (!in || fread(file, 1, sizeof file, in) == 0)
        return 2;
    load(file, &hart);
    int end;
    while ((end = run(&hart)) == CALLS && hart.x[17] != 94) {
        hart.x[10] = served(hart.x);
        hart.pc += 4;
        hart.steps++;
    }
    hart.steps++;
    printf("process 0 output %zu\n", written);
    fwrite(output, 1, written, stdout);
    if (end == CALLS)
        printf("\nprocess 0 exited %u after %llu steps\n", hart.x[10], (unsigned long long)hart.steps);
    else
        printf("\nprocess 0 trap %d hart 0 pc 0x%08X value 0x%08X after %llu steps\n", end, hart.pc, hart.value, (unsigned long long)hart.steps);
    return 0;
}
