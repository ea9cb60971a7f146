/* kinds.c - how often each kind of case came. */
#include "kinds.h"

#include "parts.h"
#include "report.h"
#include "slips.h"

#include <stdio.h>
#include <string.h>

/* A row's name, and how many numbers it has. */
static const struct {
    const char *name;
    int n;
} rows[KINDS] = {
    [RUNS] = {"runs begun", 1},
    [WHOLE_LISTS] = {"lists of whole triples, each as one list call too", 1},
    [RAGGED_LISTS] = {"lists that end inside a triple, their whole triples as one list call too", 1},
    [BUDGETS] = {"budgets of 0, short, exact, long, 0xffffffff", 5},
    [CUTS] = {"parts by the bytes left over before, 0 to 11", 12},
    [SIZES] = {"parts of 0 bytes, 1, 2 to 11, 12, more", 5},
    [BEHIND] = {"of 0 bytes behind their first triple, 1 to 11, up to 1,919, 1,920, up to 3,839, 3,840, up to 8,000, more", 8},
    [REFUSED_AT] = {"refusals at a part's first triple, 2nd, 3rd to 160th, 161st, 162nd, later; later a buffer's last, a buffer's first", 8},
    [SPENT_AT] = {"budgets spent at these", 8},
    [AFTER_END] = {"calls after the end: parts, ends", 2},
    [AFTER_STOP] = {"calls after a refusal or a spent budget: parts, ends", 2},
    [WRONG_FIRST] = {"a wrong length of ds, a, r, c, vc, v before anything has come", 6},
    [WRONG_LATER] = {"in the midst of a run", 6},
    [WRONG_EMPTY] = {"on a part of 0 bytes", 6},
    [WRONG_KEPT] = {"when an answer is kept", 6},
    [OTHER_BEGIN] = {"begins with 0, 15, 17, 32 words", OTHERS},
    [OTHER_PART] = {"parts with these", OTHERS},
    [OTHER_END] = {"ends with these", OTHERS},
    [COPIED] = {"runs that were copied and both carried on", 1},
    [ODD_WORDS] = {"words that were changed or made up, by kind", ODD},
    [BEGIN_ANSWERS] = {"begins that answered 0, 5", 2},
    [PART_ANSWERS] = {"parts that answered 0 to 7", 8},
    [END_ANSWERS] = {"ends that answered 0 to 7", 8},
};

static unsigned long counts[KINDS][NUMBERS];

const size_t other_words[OTHERS] = {0, 15, 17, 32};

void forget_kinds(void) { memset(counts, 0, sizeof counts); }

void count(enum kind kind, uint32_t n) { counts[kind][n]++; }

void count_budget(uint32_t budget, size_t triples)
{
    count(RUNS, 0);
    if (budget == 0 || budget == 0xffffffff)
        count(BUDGETS, budget == 0 ? 0 : 4);
    else
        count(BUDGETS, budget < triples ? 1 : budget == triples ? 2 : 3);
}

/* The place in a row of the first number that n is not above. */
static uint32_t place(uint32_t n, const uint32_t *last, uint32_t places)
{
    uint32_t i = 0;

    while (i < places && n > last[i])
        i++;
    return i;
}

/* A stop at triple i of a part, from 0: triple 0 is taken up by itself, those from 1 on by buffers. */
static void count_stop(uint32_t answer, uint32_t i)
{
    static const uint32_t last[] = {0, 1, BLOCK - 1, BLOCK, BLOCK + 1};
    enum kind kind = answer == VP1_SPENT ? SPENT_AT : REFUSED_AT;

    if (i > BLOCK + 1 && i % BLOCK == 0)
        count(kind, 6);
    else if (i > BLOCK + 1 && i % BLOCK == 1)
        count(kind, 7);
    else
        count(kind, place(i, last, 5));
}

static void count_good_part(const struct asked *q, const uint32_t *before, const struct side *after)
{
    static const uint32_t sizes[] = {0, 1, 11, 12}, behind[] = {0, 11, BLOCK_BYTES - 1, BLOCK_BYTES, 2 * BLOCK_BYTES - 1, 2 * BLOCK_BYTES, 8000};
    uint32_t answer = after->said.answer, all = before[6] + (uint32_t)q->count;

    count(SIZES, place((uint32_t)q->count, sizes, 4));
    if (before[6] < 12)
        count(CUTS, before[6]);
    if (before[6] < 12 && all >= 12)
        count(BEHIND, place(all - 12, behind, 7));
    if (answer != VP1_DONE && answer != VP1_LENGTHS)
        count_stop(answer, after->said.steps - before[3]);
}

/* A part with other lengths: which pieces have them, and when it comes. */
static void count_wrong_part(const struct asked *q, const uint32_t *before)
{
    enum kind kind = before[1] ? WRONG_KEPT : q->count == 0 ? WRONG_EMPTY : before[3] == 0 && before[6] == 0 ? WRONG_FIRST : WRONG_LATER;

    for (uint32_t p = 0; p < PIECES; p++)
        if (q->n[p] != right[p])
            count(kind, p);
}

static void count_part(const struct asked *q, const uint32_t *before, const struct side *after)
{
    if (memcmp(q->n, right, sizeof right) != 0)
        count_wrong_part(q, before);
    else if (!before[1])
        count_good_part(q, before, after);
}

void count_call(const struct asked *q, const struct run_room *before, const struct side *after)
{
    static const enum kind answered[CALLS] = {BEGIN_ANSWERS, PART_ANSWERS, END_ANSWERS}, other[CALLS] = {OTHER_BEGIN, OTHER_PART, OTHER_END};
    const uint32_t *w = before->w;

    count(answered[q->call], q->call == BEGIN ? after->said.answer == VP1_LENGTHS : after->said.answer);
    for (uint32_t i = 0; i < OTHERS; i++)
        if (q->words == other_words[i])
            count(other[q->call], i);
    if (q->words != VP1_PARTS || q->call == BEGIN)
        return;
    if (w[1])
        count(w[2] == VP1_DONE || w[2] == VP1_RAGGED ? AFTER_END : AFTER_STOP, q->call == END);
    if (q->call == PART)
        count_part(q, w, after);
}

int every_kind(void)
{
    for (int k = 0; k < KINDS; k++) {
        if (!quiet)
            printf("%s:", rows[k].name);
        for (int i = 0; i < rows[k].n; i++) {
            unsigned long times = slip_in_kinds() && k == CUTS && i == 11 ? 0 : counts[k][i];

            if (times == 0 && (!brief || slip_in_kinds()))
                return report_missing(rows[k].name, i);
            if (!quiet)
                printf("%s %lu", i > 0 ? "," : "", times);
        }
        if (!quiet)
            printf("\n");
    }
    return 1;
}
