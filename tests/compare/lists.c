/* lists.c - lists with budgets, refusals, ragged ends and wrong lengths; each is then done once more by single steps. */
#include "calls.h"
#include "draw.h"
#include "fields.h"
#include "parts.h"
#include "report.h"
#include "triples.h"
#include <inttypes.h>
#include <stdio.h>

enum { LISTS = 32768, LONG = 512, LONGEST = 100000 };

static uint32_t words[3 * LONGEST + 2];

static struct lengths draw_lengths(void)
{
    struct lengths lent = right;
    int p = (int)below(PIECES);

    if (below(16) == 0)
        lent.n[p] += below(2) ? 1 : -1;
    return lent;
}

/* A list of n triples, one of them refused in one list of four; one list of eight is ragged. */
static struct asked draw_list(uint32_t n)
{
    struct asked q = {.call = RUN, .words = words, .count = 3 * n};

    q.lent = draw_lengths();
    q.budget = draw_budget(n);
    for (uint32_t i = 0; i < n; i++)
        draw_triple(words + TRIPLE * i, list_opcode());
    if (n > 0 && below(4) == 0)
        refuse(words + TRIPLE * below(n));
    words[3 * n] = words[3 * n + 1] = draw();
    if (below(8) == 0)
        q.count += 1 + below(2);
    return q;
}

/* Does the list by single steps, in the other rooms, up to the one that stops it; hands over what they amount to, as a run would. What is not summed
   here stays unwritten, and differs from the run's. */
static int sum_of_steps(const struct asked *q, struct outcome *sum)
{
    struct outcome said = {.answer = VP1_DONE};
    uint64_t accesses = 0, clipped = 0;
    uint32_t steps = 0;

    for (; said.answer == VP1_DONE && steps < q->budget && 3 * (size_t)steps < q->count; steps++) {
        struct asked one = a_step(q->words + 3 * (size_t)steps);

        if (!ask(&one, 1, &said))
            return 0;
        accesses += said.accesses;
        clipped += said.clipped;
    }
    if (said.answer != VP1_DONE)
        steps--;
    not_written(sum);
    sum->answer = said.answer == VP1_DONE && 3 * (size_t)steps < q->count ? VP1_SPENT : said.answer;
    sum->accesses = accesses;
    sum->clipped = clipped;
    sum->count[0].n = steps;
    return 1;
}

/* The same list once more, by single steps. */
static int by_steps(const struct asked *q, const struct outcome *run)
{
    struct outcome sum;

    next_turn("a triple of a list by itself, after those before it", q->words, q->count);
    if (!sum_of_steps(q, &sum))
        return 0;
    if (same_numbers(run, &sum) && alike(&rooms[OURS], &rooms[OURS_BACK]))
        return 1;
    next_turn("a list as one call, and by single steps", q->words, q->count);
    report(q, 0, (struct side){"one call", &rooms[OURS], run}, (struct side){"single steps", &rooms[OURS_BACK], &sum});
    return 0;
}

/* One list, by the list call and step by step; what the list call said. */
static int list(const struct asked *q, struct outcome *said)
{
    if (!ask(q, 0, said))
        return 0;
    if (said->answer != VP1_LENGTHS && said->answer != VP1_RAGGED && !by_steps(q, said))
        return 0;
    go_on();
    return 1;
}

/* Lists whose steps, accesses and clipped components do not fit sixteen bits. */
static int longest_lists(void)
{
    static const uint32_t budgets[] = {LONGEST, LONGEST - 1, 0xffffffff};
    struct asked q = {.call = RUN, .words = words, .count = 3 * LONGEST, .lent = right};
    struct outcome said;

    for (unsigned long j = 0; j < share(3); j++) {
        next_case();
        for (uint32_t i = 0; i < LONGEST; i++)
            draw_triple(words + TRIPLE * i, list_opcode());
        q.budget = budgets[j];
        if (!list(&q, &said))
            return 0;
        if (said.accesses < 0x10000 || said.clipped < 0x10000) {
            printf("compare: a longest list counts too little: accesses %" PRIu64 ", clipped %" PRIu64 "\n", said.accesses, said.clipped);
            return 0;
        }
    }
    return 1;
}

int lists(void)
{
    for (unsigned long j = 0; j < share(LISTS); j++) {
        struct asked q;
        struct outcome said;

        if (j % 64 == 0)
            redraw_all();
        next_case();
        q = draw_list(j % 256 == 7 ? below(LONG + 1) : below(24));
        if (!list(&q, &said))
            return 0;
    }
    return longest_lists();
}
