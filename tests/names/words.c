/* words.c - words, by rule and drawn: each is written, its line is read, and what was read is written and read again. */
#include "../compare/draw.h"
#include "documented.h"
#include "parts.h"
#include "report.h"

/* Bits that are swept over all their values: every field lies in one of these, and most have one of their own. */
static const struct range {
    uint32_t low, count;
} flags = {0, 3}, uimm = {3, 11}, src3 = {4, 5}, src2 = {9, 5}, src1 = {14, 5}, dst = {19, 5}, imm16 = {0, 16};

enum { OTHERS = 3, BITS = 24, DRAWN = 1024, ANY = 4096 };

/* A normal form's line is its own, so the word that is read from it must be the same. */
static int round_trip(uint32_t word)
{
    struct line line;
    struct asked again = {.call = READ, .text = line.bytes, .must = THIS};
    struct outcome said;

    next_case(word);
    if (!write_word(word, &line))
        return 0;
    if (line.n == 0)
        return 1;
    again.n = line.n;
    return read_back(line.bytes, line.n, SUCCESS, &again.word) && ask(&again, &said);
}

/* Every value of the range; the other bits are 0, 1 and drawn. */
static int sweep(uint32_t opcode, struct range r)
{
    const uint32_t mask = ((1u << r.count) - 1) << r.low;

    for (uint32_t k = 0; k < (uint32_t)OTHERS << r.count; k += brief ? 61 : 1) {
        const uint32_t others[OTHERS] = {0, 0xffffff, below(0x1000000)};

        if (!round_trip(opcode << 24 | (others[k % OTHERS] & ~mask) | k / OTHERS << r.low))
            return 0;
    }
    return 1;
}

static int sweep_all(uint32_t op)
{
    if ((op == 0xcc || op == 0xcd) && !sweep(op, imm16))
        return 0;
    return sweep(op, flags) && sweep(op, uimm) && sweep(op, src3) && sweep(op, src2) && sweep(op, src1) && sweep(op, dst);
}

/* Of an opcode, documented or not: all other bits 0, all 1, and each of them alone the other way. */
static int single_bits(uint32_t opcode)
{
    for (uint32_t k = 0; k < 2 * (BITS + 1); k++) {
        uint32_t bit = k / 2 < BITS ? 1u << k / 2 : 0;

        if (!round_trip(opcode << 24 | (k % 2 ? 0xffffff ^ bit : bit)))
            return 0;
    }
    return 1;
}

static int drawn_words(void)
{
    for (unsigned long k = 0; k < share(DRAWN * sizeof documented); k++)
        if (!round_trip(draw_word_of(k)))
            return 0;
    return 1;
}

static int any_words(void)
{
    for (unsigned long k = 0; k < share(ANY); k++)
        if (!round_trip(draw()))
            return 0;
    return 1;
}

static int all_opcodes(void)
{
    for (uint32_t op = 0; op < 256; op++)
        if (!single_bits(op))
            return 0;
    return 1;
}

static int all_fields(void)
{
    for (size_t i = 0; i < sizeof documented; i++)
        if (!sweep_all(documented[i]))
            return 0;
    return 1;
}

int words(void) { return all_opcodes() && all_fields() && drawn_words() && any_words(); }
