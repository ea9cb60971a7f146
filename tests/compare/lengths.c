/* lengths.c - wrong lengths of the pieces and of the buffer, with good words and refused ones, in all four calls: 5, and before all else. */
#include "calls.h"
#include "draw.h"
#include "fields.h"
#include "parts.h"
#include "report.h"

/* Done, and counting nothing (setlo), cells (ldvh $v1 $a0 0x0), clipped components (vsub u $v1 $v0 0xff); refused with 1, 2, 3 and 4. */
enum { TRIPLES = 7 };
static const uint32_t triples[TRIPLES][TRIPLE] = {
    {0xcc181234, 0, 0}, {0xd8080007, 0, 0}, {0xbd0807ff, 0, 0},       {0x7f000000, 0, 0},
    {0xc3000000, 0, 0}, {0xca000000, 32, 0}, {0x8f000000, 0, 0x20000},
};

/* The lengths that are tried for a piece: GUARD bytes behind it are its own memory still. */
static size_t wrong_length(enum piece p, int way)
{
    size_t n = shapes[p].length;

    switch (way) {
    case 0: return 0;
    case 1: return 1;
    case 2: return n / 2;
    case 3: return n - 1;
    case 4: return n + 1;
    default: return n + GUARD / shapes[p].width;
    }
}

/* Whether a list of any sort, under a budget of 0, 1 and more, is answered alike. */
static int run_lists(const uint32_t *words, struct lengths lent)
{
    static const uint32_t budgets[] = {0, 1, 2, 0xffffffff};
    struct asked q = {.call = RUN, .words = words, .lent = lent};
    struct outcome said;

    for (int b = 0; b < 4; b++)
        for (q.count = 0; q.count <= 6; q.count++) {
            q.budget = budgets[b];
            next_case();
            if (!ask(&q, 0, &said))
                return 0;
            go_on();
        }
    return 1;
}

static int ask_places(const uint32_t *words, struct lengths lent)
{
    static const size_t buffers[] = {0, 1, LEAST - 1, LEAST, LEAST + 1, BUFFER};
    struct asked q = {.call = PLACES, .words = words, .count = 3, .lent = lent};
    struct outcome said;

    for (int b = 0; b < 6; b++) {
        q.buffer = buffers[b];
        next_case();
        if (!ask(&q, 0, &said))
            return 0;
    }
    return 1;
}

/* Everything that can be asked of two triples lent at these lengths. */
static int all_calls(const uint32_t *words, struct lengths lent)
{
    struct asked swap = {.call = SWAP, .words = words, .count = 6, .lent = lent}, step = a_step(words);
    struct outcome said;

    step.lent = lent;
    next_case();
    if (!ask(&step, 0, &said))
        return 0;
    go_on();
    next_case();
    if (!ask(&swap, 0, &said))
        return 0;
    return run_lists(words, lent) && ask_places(words, lent);
}

/* Each two of the triples, at these lengths. */
static int all_words(struct lengths lent)
{
    for (int i = 0; i < TRIPLES * TRIPLES; i++) {
        const uint32_t *one = triples[i / TRIPLES], *other = triples[i % TRIPLES];
        const uint32_t words[6] = {one[0], one[1], one[2], other[0], other[1], other[2]};

        if (!all_calls(words, lent))
            return 0;
    }
    return 1;
}

int lengths(void)
{
    redraw_all();
    if (!all_words(right))
        return 0;
    for (int p = 0; p < PIECES; p++)
        for (int way = 0; way < 6; way++) {
            struct lengths lent = right;

            lent.n[p] = wrong_length((enum piece)p, way);
            if (!all_words(lent))
                return 0;
        }
    for (unsigned long k = 0; k < share(64); k++) {
        struct lengths lent = right;

        for (int p = 0; p < PIECES; p++)
            if (below(3) == 0)
                lent.n[p] = wrong_length((enum piece)p, (int)below(6));
        if (!all_words(lent))
            return 0;
    }
    return 1;
}
