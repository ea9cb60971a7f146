/* cases.c - lists with refusals, budgets and ragged ends, cut in all ways; long ones, cut and stopped around the borders of the library's
   buffer; and runs that are copied on the way. */
#include "../compare/draw.h"
#include "../compare/fields.h"
#include "../compare/triples.h"
#include "kinds.h"
#include "list.h"
#include "parts.h"
#include "report.h"

enum { CUT_LISTS = 40000, LONG_LISTS = 6000, COPIES = 6000 };

static struct both b, copy;

/* Everything is drawn before every 64th case; else the state that the last case left is this one's. */
static void next(unsigned long j)
{
    if (j % 64 == 0)
        redraw_all();
    begin_case(&b);
}

int cuts(void)
{
    for (unsigned long j = 0; j < share(CUT_LISTS); j++) {
        next(j);
        draw_list(j % 128 == 7 ? below(200) : below(24));
        if (!begin(&b) || !feed(&b, 0, list.count) || !finish(&b))
            return 0;
        end_case(&b);
    }
    return 1;
}

/* ---- Borders: the library takes bytes up by blocks ---- */

/* A number within two of a multiple of a block's triples, up to so many of them. */
static uint32_t near_block(uint32_t most) { return BLOCK * (1 + below(most)) + below(5) - 2; }

/* A long list that is refused or spent around a border of the part that begins behind `first` bytes, or goes through. */
static void draw_long_list(size_t first)
{
    uint32_t at = (uint32_t)first / 12 + near_block(9);

    list.triples = near_block(10);
    list.budget = 0xffffffff;
    for (size_t i = 0; i < list.triples; i++)
        draw_triple(list.words + TRIPLE * i, list_opcode());
    switch (below(4)) {
    case 0: break;
    case 1: list.budget = at; break;
    case 2: list.budget = (uint32_t)list.triples + below(3) - 1; break;
    default:
        if (at < list.triples)
            refuse(list.words + TRIPLE * at);
    }
    lay_bytes(below(4) == 0 ? 1 + below(11) : 0);
}

/* The rest as one part; or in parts of a few blocks, and up to 13 bytes more or less. */
static int feed_blocks(size_t from)
{
    int whole = below(2) == 0;

    while (from < list.count) {
        size_t rest = list.count - from, n = BLOCK_BYTES * (1 + below(3)) + below(27) - 13;

        if (below(8) == 0)
            n = BLOCK_BYTES * (1 + below(2));
        n = whole || n > rest ? rest : n;
        if (!part(&b, from, n))
            return 0;
        from += n;
    }
    return 1;
}

int borders(void)
{
    for (unsigned long j = 0; j < share(LONG_LISTS); j++) {
        size_t first;

        next(j);
        first = below(3) == 0 ? 0 : below(30);
        draw_long_list(first);
        if (!begin(&b) || !part(&b, 0, first) || !feed_blocks(first) || !finish(&b))
            return 0;
        end_case(&b);
    }
    return 1;
}

/* ---- Copies ---- */

/* The two runs by turns, from the byte where the one was copied. */
static int both_go_on(size_t from)
{
    size_t mid = from + below((uint32_t)(list.count - from) + 1);

    note("the run is copied; the run goes on");
    if (!feed(&b, from, mid))
        return 0;
    note("the copy goes on");
    if (!feed(&copy, from, list.count) || !finish(&copy))
        return 0;
    note("the run goes on");
    return feed(&b, mid, list.count) && finish(&b);
}

int copies(void)
{
    for (unsigned long j = 0; j < share(COPIES); j++) {
        size_t at;

        next(j);
        draw_list(j % 64 == 9 ? below(200) : below(24));
        at = below((uint32_t)list.count + 1);
        if (!begin(&b) || !feed(&b, 0, at))
            return 0;
        copy = b;
        if (!both_go_on(at))
            return 0;
        count(COPIED, 0);
        end_case(&b);
    }
    return 1;
}
