/* lengths.c - parts with a wrong length of a piece, at every point of a run; and after them the run goes on with right ones. */
#include "../compare/draw.h"
#include "list.h"
#include "parts.h"

enum { WRONG_RUNS = 8000, LENGTHS = 6 };

static struct both b;

/* A wrong length of a piece; behind a piece lie 64 bytes more. */
static size_t wrong_length(enum piece p, uint32_t k)
{
    size_t n = right[p];

    switch (k) {
    case 0: return 0;
    case 1: return 1;
    case 2: return n / 2;
    case 3: return n - 1;
    case 4: return n + 1;
    default: return n + GUARD / shapes[p].width;
    }
}

/* Each piece by turns at each wrong length; in one case of eight another piece too. */
static void draw_lengths(unsigned long j, size_t n[PIECES])
{
    for (int p = 0; p < PIECES; p++)
        n[p] = right[p];
    n[j % PIECES] = wrong_length((enum piece)(j % PIECES), (uint32_t)(j / PIECES % LENGTHS));
    if (below(8) == 0) {
        enum piece other = (enum piece)below(PIECES);

        n[other] = wrong_length(other, below(LENGTHS));
    }
}

/* The wrong part comes at byte `at`, with bytes or without, or after the end. Afterwards all the rest comes, and the end. */
static int wrong_run(const size_t n[PIECES])
{
    uint32_t when = below(4);
    size_t at = when == 0 ? 0 : below((uint32_t)list.count + 1);
    size_t count = when == 1 ? 0 : below((uint32_t)(list.count - at) + 1);

    if (!begin(&b) || !feed(&b, 0, at))
        return 0;
    if (when == 2 && !end(&b))
        return 0;
    return part_with(&b, at, count, n) && feed(&b, at, list.count) && part_with(&b, 0, 0, n) && end(&b) && end(&b) &&
           part(&b, 0, list.count);
}

int lengths(void)
{
    for (unsigned long j = 0; j < share(WRONG_RUNS); j++) {
        size_t n[PIECES];

        if (j % 64 == 0)
            redraw_all();
        begin_case(&b);
        draw_list(below(16));
        draw_lengths(j, n);
        if (!wrong_run(n))
            return 0;
        end_case(&b);
    }
    return 1;
}
