/* calls.c - one call of a list in parts, made of both engines and compared. */
#include "calls.h"

#include "kinds.h"
#include "report.h"
#include "slips.h"
#include "vp1.h"
#include "vp1_second.h"

#include <string.h>

const size_t right[PIECES] = {[DS] = VP1_DS, [A] = VP1_A, [R] = VP1_R, [C] = VP1_C, [VC] = VP1_VC, [V] = VP1_V};

#define LENT(s, n)                                                                                                                         \
    (s)->room.ds, (n)[DS], (s)->room.a, (n)[A], (s)->room.r, (n)[R], (s)->room.c, (n)[C], (s)->room.vc, (n)[VC], (s)->room.v, (n)[V]
#define COUNTS(s) &(s)->said.steps, &(s)->said.accesses, &(s)->said.clipped
#define RUN_AND_COUNTS s->run.w, q->words, COUNTS(s)

static uint8_t *lent_bytes(const struct asked *q, struct side *s) { return s->page + GUARD + q->shift; }

static void of_ours(const struct asked *q, struct side *s)
{
    switch (q->call) {
    case BEGIN: s->said.answer = vp1_begin(q->budget, s->run.w, q->words); break;
    case PART: s->said.answer = vp1_part(lent_bytes(q, s), q->count, LENT(s, q->n), RUN_AND_COUNTS); break;
    default: s->said.answer = vp1_end(RUN_AND_COUNTS);
    }
}

void of_second(const struct asked *q, struct side *s)
{
    switch (q->call) {
    case BEGIN: s->said.answer = second_begin(q->budget, s->run.w, q->words); break;
    case PART: s->said.answer = second_part(lent_bytes(q, s), q->count, LENT(s, q->n), RUN_AND_COUNTS); break;
    default: s->said.answer = second_end(RUN_AND_COUNTS);
    }
}

/* ---- Lending ---- */

/* What every guard holds: a guard of a room before the case. */
static const uint8_t *pattern(void) { return rooms[BEFORE].guard0; }

/* Sets the guards and lays the bytes between them. What the words hold stays. */
static void lend(const struct asked *q, struct side *s)
{
    uint8_t *at = lent_bytes(q, s);

    memset(&s->said, UNTOUCHED, sizeof s->said);
    memcpy(s->run.guard0, pattern(), GUARD);
    memcpy(s->run.guard1, pattern(), GUARD);
    memcpy(at - GUARD, pattern(), GUARD);
    if (q->count > 0)
        memcpy(at, q->bytes, q->count);
    memcpy(at + q->count, pattern(), GUARD);
}

static int numbers_whole(const struct said *o)
{
    const uint64_t word = 0x0101010101010101u * UNTOUCHED;

    return o->guard0 == (uint32_t)word && o->guard1 == (uint32_t)word && o->guard2 == word && o->guard3 == word && o->guard4 == word;
}

/* All guards that were lent, and the words behind those of the run. */
static int all_guards_whole(const struct asked *q, struct side *s, const struct run_room *before)
{
    const uint8_t *at = lent_bytes(q, s);
    size_t used = q->words < VP1_PARTS ? q->words : VP1_PARTS;

    return guards_whole(&s->room) && numbers_whole(&s->said) && memcmp(s->run.guard0, pattern(), GUARD) == 0 &&
           memcmp(s->run.guard1, pattern(), GUARD) == 0 && memcmp(at - GUARD, pattern(), GUARD) == 0 &&
           memcmp(at + q->count, pattern(), GUARD) == 0 &&
           memcmp(s->run.w + used, before->w + used, sizeof before->w - 4 * used) == 0;
}

static int bytes_whole(const struct asked *q, struct side *s)
{
    return q->count == 0 || memcmp(lent_bytes(q, s), q->bytes, q->count) == 0;
}

/* ---- What our engine is held to by itself ---- */

uint64_t count_at(const uint32_t *words, int at) { return words[at] | (uint64_t)words[at + 1] << 32; }

void set_count(uint32_t *words, int at, uint64_t n)
{
    words[at] = (uint32_t)n;
    words[at + 1] = (uint32_t)(n >> 32);
}

/* Whether the words have the form that docs/PARTS.md gives. */
static int well_formed(const uint32_t *w)
{
    uint64_t most = 16 * (uint64_t)w[3];
    int good = w[1] <= 1 && w[2] <= VP1_SPENT && (w[1] == 1 || w[2] == 0) && w[3] <= w[0] && count_at(w, ACCESSES_AT) <= most &&
               count_at(w, CLIPPED_AT) <= most && w[6] <= 11;

    for (uint32_t i = w[6]; good && i < 12; i++)
        good = (w[7 + i / 4] >> 8 * (i % 4) & 0xff) == 0;
    for (int i = 12; i < VP1_PARTS; i++)
        good = good && w[i] == 0;
    return good;
}

/* Whether these counts are what was said. */
static int said_counts(const struct side *s, uint32_t steps, uint64_t accesses, uint64_t clipped)
{
    return s->said.steps == steps && s->said.accesses == accesses && s->said.clipped == clipped;
}

static int said_what_words_tell(const struct side *s, const uint32_t *w)
{
    return s->said.answer == w[2] && said_counts(s, w[3], count_at(w, ACCESSES_AT), count_at(w, CLIPPED_AT));
}

/* Whether the words have that form, and tell what was answered. */
static int formed(const struct asked *q, const struct side *s)
{
    const uint32_t *w = s->run.w;

    if (!well_formed(w))
        return 0;
    if (q->call == BEGIN)
        return s->said.answer == VP1_DONE && w[0] == q->budget && w[1] == 0 && w[3] == 0 && w[6] == 0;
    return said_what_words_tell(s, w);
}

/* Whether such words tell a run that is over: then nothing may change any more. */
static int over(const struct run_room *r) { return r->w[1] == 1 && well_formed(r->w); }

/* Whether the call must leave the pieces as they were. */
static int must_stay(const struct asked *q, const struct run_room *before)
{
    return q->words != VP1_PARTS || q->call != PART || over(before);
}

/* Whether what must stay did, and the answer is then the right one. */
static int stayed(const struct asked *q, const struct side *s, const struct run_room *before, const struct room *was)
{
    if (!must_stay(q, before))
        return 1;
    if (!alike(&s->room, was))
        return 0;
    if (q->words != VP1_PARTS)
        return s->said.answer == VP1_LENGTHS && memcmp(s->run.w, before->w, sizeof before->w) == 0 &&
               (q->call == BEGIN || said_counts(s, 0, 0, 0));
    if (q->call == BEGIN || !over(before))
        return 1;
    return said_what_words_tell(s, before->w) && memcmp(s->run.w, before->w, sizeof before->w) == 0;
}

/* ---- The comparison ---- */

static unsigned compare_sides(const struct side *x, const struct side *y)
{
    unsigned wrong = 0;

    if (x->said.answer != y->said.answer)
        wrong |= BIT(ANSWER);
    if (x->said.steps != y->said.steps)
        wrong |= BIT(STEPS);
    if (x->said.accesses != y->said.accesses)
        wrong |= BIT(ACCESSES);
    if (x->said.clipped != y->said.clipped)
        wrong |= BIT(CLIPPED);
    for (int p = 0; p < PIECES; p++)
        if (!piece_alike(&x->room, &y->room, (enum piece)p))
            wrong |= BIT(DS_WRONG + p);
    return wrong;
}

static unsigned find_wrong(const struct asked *q, struct both *b, const struct run_room *before, const struct room *was)
{
    unsigned wrong = compare_sides(&b->ours, &b->theirs);

    if (memcmp(b->ours.run.w, b->theirs.run.w, sizeof b->ours.run.w) != 0)
        wrong |= BIT(RUN_WORDS);
    if (!all_guards_whole(q, &b->ours, before) || !all_guards_whole(q, &b->theirs, before))
        wrong |= BIT(GUARDS);
    if (!bytes_whole(q, &b->ours) || !bytes_whole(q, &b->theirs))
        wrong |= BIT(BYTES);
    if (q->words == VP1_PARTS && !formed(q, &b->ours))
        wrong |= BIT(FORM);
    if (!stayed(q, &b->ours, before, was))
        wrong |= BIT(STAYS);
    return wrong;
}

int ask(const struct asked *q, struct both *b)
{
    static struct room was;
    struct run_room before = b->ours.run;
    unsigned wrong;

    next_call(q);
    lend(q, &b->ours);
    lend(q, &b->theirs);
    if (must_stay(q, &before))
        copy_room(&was, &b->ours.room);
    if (slip_in_both())
        of_slipped(q, &b->ours);
    else
        of_ours(q, &b->ours);
    of_slipped(q, &b->theirs);
    spoil(q, b, &before);
    wrong = find_wrong(q, b, &before, &was);
    if (wrong)
        return report(wrong, &before, "vp1", &b->ours, "second", &b->theirs);
    count_call(q, &before, &b->ours);
    return 1;
}

int as_one_list(const uint32_t *words, size_t count, uint32_t budget, int ragged, const struct both *b)
{
    static struct both whole;
    struct side *x = &whole.ours, *y = &whole.theirs;
    unsigned wrong;

    copy_room(&x->room, &rooms[BEFORE]);
    copy_room(&y->room, &rooms[BEFORE]);
    x->said.answer = vp1_run(words, count, budget, LENT(x, right), COUNTS(x));
    y->said.answer = second_run(words, count, budget, LENT(y, right), COUNTS(y));
    if (ragged && x->said.answer == VP1_DONE)
        x->said.answer = VP1_RAGGED;
    if (ragged && y->said.answer == VP1_DONE)
        y->said.answer = VP1_RAGGED;
    wrong = compare_sides(&b->ours, x);
    if (wrong)
        return report(wrong | BIT(WHOLE), &b->ours.run, "vp1, in parts", &b->ours, "vp1, one list", x);
    wrong = compare_sides(&b->theirs, y);
    return !wrong || report(wrong | BIT(WHOLE), &b->theirs.run, "second, in parts", &b->theirs, "second, one list", y);
}
