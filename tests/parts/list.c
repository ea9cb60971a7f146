/* list.c - the list of a case, how it is drawn, and how it is fed to both engines in parts. */
#include "list.h"

#include "../compare/draw.h"
#include "../compare/fields.h"
#include "../compare/triples.h"
#include "kinds.h"
#include "report.h"

struct list list;

void lay_bytes(size_t more)
{
    for (size_t i = 0; i < 12 * list.triples; i++)
        list.bytes[i] = (uint8_t)(list.words[i / 4] >> 8 * (i % 4));
    draw_bytes(list.bytes + 12 * list.triples, more);
    list.count = 12 * list.triples + more;
}

void draw_list(uint32_t n)
{
    list.triples = n;
    list.budget = draw_budget(n);
    for (uint32_t i = 0; i < n; i++)
        draw_triple(list.words + TRIPLE * i, list_opcode());
    if (n > 0 && below(4) == 0)
        refuse(list.words + TRIPLE * below(n));
    lay_bytes(below(8) == 0 ? 1 + below(11) : 0);
}

void begin_case(struct both *b)
{
    next_case();
    copy_room(&b->ours.room, &rooms[BEFORE]);
    copy_room(&b->theirs.room, &rooms[BEFORE]);
    for (uint32_t i = VP1_PARTS; i < LONGEST_RUN; i++) /* behind the run's words: none of them is ever written */
        b->ours.run.w[i] = b->theirs.run.w[i] = 0xa5000000 + i;
}

void end_case(const struct both *b) { copy_room(&rooms[BEFORE], &b->ours.room); }

int begin(struct both *b)
{
    const struct asked q = {.call = BEGIN, .budget = list.budget, .words = VP1_PARTS};

    count_budget(list.budget, list.triples);
    return ask(&q, b);
}

int part_with(struct both *b, size_t from, size_t count, const size_t n[PIECES])
{
    struct asked q = {.call = PART, .bytes = list.bytes + from, .count = count, .shift = draw() % SHIFTS, .words = VP1_PARTS};

    for (int p = 0; p < PIECES; p++)
        q.n[p] = n[p];
    return ask(&q, b);
}

int part(struct both *b, size_t from, size_t count) { return part_with(b, from, count, right); }

int end(struct both *b)
{
    const struct asked q = {.call = END, .words = VP1_PARTS};

    return ask(&q, b);
}

/* How long the next part is, of `rest` bytes, in a list that is cut in this way. */
enum { WAYS = 8 };

static size_t next_length(uint32_t way, size_t rest)
{
    size_t n;

    switch (way) {
    case 0: n = rest; break;
    case 1: n = 1; break;
    case 2: n = below(5); break;
    case 3: n = below(40); break;
    case 4: n = 12 * below(4); break;
    case 5: n = 4 * below(8); break;
    case 6: n = 11 + below(3); break;
    default: n = below((uint32_t)rest + 1);
    }
    return n < rest ? n : rest;
}

int feed(struct both *b, size_t from, size_t to)
{
    uint32_t way = below(WAYS);

    if (way == 1 && to - from > 600)
        way = 7; /* byte by byte, a long list would tell no more than a short one */
    while (from < to) {
        size_t n = below(16) == 0 ? 0 : next_length(way, to - from);

        if (!part(b, from, n))
            return 0;
        from += n;
    }
    return below(8) != 0 || part(b, to, 0);
}

/* One call more, of a run that is over. */
static int one_more(struct both *b)
{
    size_t from = below((uint32_t)list.count + 1);

    return below(3) == 0 ? end(b) : part(b, from, below(2) ? 0 : list.count - from);
}

int finish(struct both *b)
{
    int ragged = list.count % 12 != 0;

    if (!end(b) || !as_one_list(list.words, 3 * list.triples, list.budget, ragged, b))
        return 0;
    count(ragged ? RAGGED_LISTS : WHOLE_LISTS, 0);
    for (uint32_t more = below(4); more > 0; more--)
        if (!one_more(b))
            return 0;
    return 1;
}
