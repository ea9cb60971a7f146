/* words.c - words of another number than sixteen, in the midst of runs that then go on as if nothing had been; and words that are changed on
   the way, or made up. */
#include "../compare/draw.h"
#include "kinds.h"
#include "list.h"
#include "parts.h"
#include "report.h"

enum { OTHER_RUNS = 6000, ODD_RUNS = 24000 };

static struct both b;

static void next(unsigned long j)
{
    if (j % 64 == 0)
        redraw_all();
    begin_case(&b);
    draw_list(below(12));
}

/* A call with words of another number. */
static int other_call(size_t at)
{
    struct asked q = {.call = (enum call)below(CALLS), .budget = draw(), .bytes = list.bytes + at, .words = ONE_OF(other_words)};

    for (int p = 0; p < PIECES; p++)
        q.n[p] = right[p] - (below(32) == 0);
    if (q.call == PART)
        q.count = below((uint32_t)(list.count - at) + 1);
    return ask(&q, &b);
}

static int other_numbers(unsigned long j)
{
    size_t at;

    next(j);
    at = below((uint32_t)list.count + 1);
    if (!begin(&b) || !feed(&b, 0, at) || !other_call(at) || !other_call(at))
        return 0;
    if (!feed(&b, at, list.count) || !finish(&b) || !other_call(0))
        return 0;
    end_case(&b);
    return 1;
}

/* ---- Any words ---- */

static void draw_words(uint32_t *w, int from, int to, uint32_t below_this)
{
    for (int i = from; i < to; i++)
        w[i] = below_this ? below(below_this) : draw();
}

/* Bits of words 7 to 9 that belong to no byte that is left over. */
static void draw_behind(uint32_t *w)
{
    for (uint32_t i = w[6]; i < 12; i++)
        w[7 + i / 4] ^= below(256) << 8 * (i % 4);
}

/* A run that is over with this answer, whatever it was. */
static void set_over(uint32_t *w, uint32_t over, uint32_t answer)
{
    w[1] = over;
    w[2] = answer;
}

/* A count one above its bound, on it, above it by its high half; on the largest bounds, and above the largest. */
enum { COUNT_WAYS = 5 };

static void change_count(uint32_t *w, int at, uint32_t way)
{
    switch (way) {
    case 0: set_count(w, at, 16 * (uint64_t)w[3] + 1); break;
    case 1: set_count(w, at, 16 * (uint64_t)w[3]); break;
    case 2: w[at + 1] = 1 + draw() % 3; break;
    case 3: w[0] = 0xffffffff, w[3] = 0xfffffffe - below(3), set_count(w, at, 16 * (uint64_t)w[3] - below(3)); break;
    default: w[at + 1] = 0x10, w[0] = w[3] = 0xffffffff; break;
    }
}

/* The numbers one beside their bounds, or on them. */
static void change_numbers(uint32_t *w, uint32_t kind)
{
    switch (kind) {
    case 0: w[0] = below(100), w[3] = w[0] + 1, set_count(w, ACCESSES_AT, 0), set_count(w, CLIPPED_AT, 0); break;
    case 1: w[0] = w[3]; break;
    case 2: w[6] = 12; break;
    case 3: w[6] = 12 + draw() / 2; break;
    default: change_count(w, kind - 4 < COUNT_WAYS ? ACCESSES_AT : CLIPPED_AT, (kind - 4) % COUNT_WAYS);
    }
}

/* Changes the words in one of ODD ways. */
static void change(uint32_t *w, uint32_t kind)
{
    static const uint32_t tops[] = {8, 11, 12, 77, 0x100, 0x10005, 0x80000000, 0xffffffff};

    switch (kind) {
    case 0: draw_words(w, 0, VP1_PARTS, 0); break;
    case 1: draw_words(w, 0, VP1_PARTS, 20), w[5] = w[11] = 0; break;
    case 2: set_over(w, 2, w[2]); break;
    case 3: set_over(w, 0x80000000, below(8)); break;
    case 4: set_over(w, 1, ONE_OF(tops)); break;
    case 5: set_over(w, 1, below(8)); break;
    case 6: set_over(w, 0, below(2) ? 77 : draw()); break;
    case 7: draw_words(w, 12, VP1_PARTS, 0); break;
    case 8: draw_behind(w); break;
    case 9: draw_words(w, 0, VP1_PARTS, 1); break;
    default: change_numbers(w, kind - 10);
    }
}

static int odd_words(unsigned long j)
{
    uint32_t kind = (uint32_t)(j % ODD);
    size_t at;

    next(j);
    at = below((uint32_t)list.count + 1);
    if (!begin(&b) || !feed(&b, 0, at))
        return 0;
    note("the words are changed");
    change(b.ours.run.w, kind);
    if (below(4) == 0)
        change(b.ours.run.w, 7 + below(2));
    b.theirs.run = b.ours.run;
    count(ODD_WORDS, kind);
    if ((below(4) != 0 && !feed(&b, at, list.count)) || !end(&b) || !part(&b, 0, list.count))
        return 0;
    end_case(&b);
    return 1;
}

int words(void)
{
    for (unsigned long j = 0; j < share(OTHER_RUNS); j++)
        if (!other_numbers(j))
            return 0;
    for (unsigned long j = 0; j < share(ODD_RUNS); j++)
        if (!odd_words(j))
            return 0;
    return 1;
}
