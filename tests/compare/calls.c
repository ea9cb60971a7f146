/* calls.c - one call, made of both engines and compared. */
#include "calls.h"

#include "report.h"
#include "slips.h"
#include "vp1.h"
#include "vp1_order.h"
#include "vp1_second.h"

#include <string.h>

const struct lengths right = {
    {[DS] = LENGTH(ds), [A] = LENGTH(a), [R] = LENGTH(r), [C] = LENGTH(c), [VC] = LENGTH(vc), [V] = LENGTH(v)}};

const char *const call_names[CALLS] = {"step", "run", "places", "may_swap"};
const char *const count_names[CALLS][COUNTS] = {
    [RUN] = {"steps"}, [PLACES] = {"reads", "writes"}, [SWAP] = {"clash", "place", "writer"}};

const uint32_t last_answer[CALLS] = {[STEP] = VP1_LENGTHS, [RUN] = VP1_SPENT, [PLACES] = VP1_LENGTHS, [SWAP] = VP1_LENGTHS};
unsigned long answers[CALLS][ANSWERS];

struct asked a_step(const uint32_t *triple) { return (struct asked){.call = STEP, .words = triple, .count = 3, .lent = right}; }

#define LENT                                                                                                                               \
    room->ds, n[DS], room->a, n[A], room->r, n[R], room->c, n[C], room->vc, n[VC], room->v, n[V]
#define FIRST w[0], w[1], w[2]
#define SECOND w[3], w[4], w[5]

static uint32_t of_ours(const struct asked *q, struct room *room, struct outcome *o)
{
    const uint32_t *w = q->words;
    const size_t *n = q->lent.n;

    switch (q->call) {
    case STEP: return vp1_step(FIRST, LENT, &o->accesses, &o->clipped);
    case RUN: return vp1_run(w, q->count, q->budget, LENT, &o->count[0].n, &o->accesses, &o->clipped);
    case PLACES: return vp1_places(FIRST, LENT, o->buffer, q->buffer, &o->count[0].n, &o->count[1].n);
    default: return vp1_may_swap(FIRST, SECOND, LENT, &o->count[0].n, &o->count[1].n, &o->count[2].n);
    }
}

static uint32_t of_theirs(const struct asked *q, struct room *room, struct outcome *o)
{
    const uint32_t *w = q->words;
    const size_t *n = q->lent.n;

    switch (q->call) {
    case STEP: return second_step(FIRST, LENT, &o->accesses, &o->clipped);
    case RUN: return second_run(w, q->count, q->budget, LENT, &o->count[0].n, &o->accesses, &o->clipped);
    case PLACES: return second_places(FIRST, LENT, o->buffer, q->buffer, &o->count[0].n, &o->count[1].n);
    default: return second_may_swap(FIRST, SECOND, LENT, &o->count[0].n, &o->count[1].n, &o->count[2].n);
    }
}

int same_numbers(const struct outcome *x, const struct outcome *y) { return memcmp(x, y, sizeof *x) == 0; }

void not_written(struct outcome *o) { memset(o, UNTOUCHED, sizeof *o); }

static int untouched(const void *bytes, size_t n)
{
    for (size_t i = 0; i < n; i++)
        if (((const uint8_t *)bytes)[i] != UNTOUCHED)
            return 0;
    return 1;
}

/* Whether the guards of the numbers kept what they held. */
static int numbers_whole(const struct outcome *o)
{
    if (!untouched(&o->guard, sizeof o->guard) || !untouched(&o->accesses_guard, sizeof o->accesses_guard) ||
        !untouched(&o->clipped_guard, sizeof o->clipped_guard) || !untouched(o->last_guard, sizeof o->last_guard))
        return 0;
    for (int i = 0; i < COUNTS; i++)
        if (!untouched(&o->count[i].guard, sizeof o->count[i].guard))
            return 0;
    return 1;
}

/* Whether the buffer kept what it held behind the list of places. */
static int rest_whole(const struct outcome *o)
{
    size_t listed = (size_t)o->count[0].n + o->count[1].n;

    return listed <= LEAST && untouched(o->buffer + listed, sizeof o->buffer - listed * sizeof o->buffer[0]);
}

/* Whether the call must leave the pieces as they were: it only asks, or it refuses before anything is done. A list's refusal comes after steps. */
static int leaves_all(enum call call, uint32_t answer)
{
    if (call == PLACES || call == SWAP || answer == VP1_LENGTHS || answer == VP1_RAGGED)
        return 1;
    return call == STEP && answer != VP1_DONE;
}

/* Only our side is held to what must stay: where theirs is another, the two differ. */
static unsigned find_wrong(enum call call, int back, struct handed ours, struct handed theirs)
{
    unsigned wrong = 0;

    if (!same_numbers(ours.said, theirs.said) || !alike(ours.room, theirs.room))
        wrong |= ENGINES;
    if (!guards_whole(ours.room) || !numbers_whole(ours.said))
        wrong |= GUARDS;
    if (call == PLACES && !rest_whole(ours.said))
        wrong |= BEHIND;
    /* Done a second way, a call may come after others that did change the pieces. */
    if (!back && leaves_all(call, ours.said->answer) && !alike(ours.room, &rooms[BEFORE]))
        wrong |= CHANGED;
    if (ours.said->answer > last_answer[call])
        wrong |= UNKNOWN;
    return wrong;
}

int ask(const struct asked *q, int back, struct outcome *said)
{
    struct outcome our_outcome;
    struct handed ours = {&rooms[back ? OURS_BACK : OURS], &our_outcome}, theirs = {&rooms[back ? THEIRS_BACK : THEIRS], said};
    unsigned wrong;

    not_written(ours.said);
    not_written(theirs.said);
    ours.said->answer = of_ours(q, ours.room, ours.said);
    theirs.said->answer = of_theirs(q, theirs.room, theirs.said);
    spoil(q, back, ours, theirs);
    wrong = find_wrong(q->call, back, ours, theirs);
    if (wrong)
        report(q, wrong, (struct side){"vp1", ours.room, ours.said}, (struct side){"second", theirs.room, theirs.said});
    else
        answers[q->call][said->answer]++;
    return !wrong;
}
