/* parts.c - a list that arrives in parts, as bytes (document 02, wish 3): each byte joins
 * those that are left over, and the twelfth makes a triple, which is done at once. What is
 * kept between the calls is in words that the caller lends (docs/PARTS.md). */
#include "vp1_second.h"

enum { TRIPLE = 12, LAST_ANSWER = SECOND_BUDGET };

/* The run that the words tell. */
struct run {
    uint32_t budget, over, answer, steps;
    uint64_t accesses, clipped;
    uint32_t left; /* how many bytes are left over: these */
    uint8_t bytes[TRIPLE];
};

/* The six pieces, as they are lent for a part. */
struct lent {
    uint8_t *ds;
    size_t nds;
    uint32_t *a;
    size_t na;
    uint32_t *r;
    size_t nr;
    uint32_t *c;
    size_t nc;
    uint32_t *vc;
    size_t nvc;
    uint8_t *v;
    size_t nv;
};

static void stop(struct run *run, uint32_t answer)
{
    run->over = 1;
    run->answer = answer;
}

/* Any words tell some run; those out of the bounds of every run, one that was refused before
 * its first step. */
static struct run tell(const uint32_t *words)
{
    struct run run = { .budget = words[0], .over = words[1] != 0, .steps = words[3], .left = words[6] };
    uint64_t most; /* no step enters more cells, or clips more components, than 16 */

    run.answer = run.over ? words[2] : SECOND_DONE;
    run.accesses = words[4] + ((uint64_t)words[5] << 32);
    run.clipped = words[10] + ((uint64_t)words[11] << 32);
    most = 16 * (uint64_t)run.steps;
    if (run.steps > run.budget || run.accesses > most || run.clipped > most || run.left >= TRIPLE
        || run.answer > LAST_ANSWER) {
        run = (struct run){ .budget = 0 };
        stop(&run, SECOND_BAD_LENGTH);
        return run;
    }
    for (uint32_t i = 0; i < run.left; i++)
        run.bytes[i] = (uint8_t)(words[7 + i / 4] >> 8 * (i % 4));
    return run;
}

/* Writes the run into the words, and its counts; returns its answer. */
static uint32_t keep(const struct run *run, uint32_t *words,
                     uint32_t *steps, uint64_t *accesses, uint64_t *clipped)
{
    for (int i = 0; i < SECOND_PARTS; i++)
        words[i] = 0;
    words[0] = run->budget;
    words[1] = run->over;
    words[2] = run->answer;
    words[3] = run->steps;
    words[4] = (uint32_t)run->accesses;
    words[5] = (uint32_t)(run->accesses >> 32);
    words[6] = run->left;
    for (uint32_t i = 0; i < run->left; i++)
        words[7 + i / 4] |= (uint32_t)run->bytes[i] << 8 * (i % 4);
    words[10] = (uint32_t)run->clipped;
    words[11] = (uint32_t)(run->clipped >> 32);
    *steps = run->steps;
    *accesses = run->accesses;
    *clipped = run->clipped;
    return run->answer;
}

static uint32_t word_at(const uint8_t *bytes)
{
    return bytes[0] | (uint32_t)bytes[1] << 8 | (uint32_t)bytes[2] << 16 | (uint32_t)bytes[3] << 24;
}

/* Takes up the triple that is whole now: its bytes are no longer left over. */
static void do_triple(struct run *run, const struct lent *p)
{
    const uint8_t *b = run->bytes;
    uint64_t cells, clipped;
    uint32_t answer;

    run->left = 0;
    if (run->steps == run->budget) {
        stop(run, SECOND_BUDGET);
        return;
    }
    answer = second_step(word_at(b), word_at(b + 4), word_at(b + 8), p->ds, p->nds, p->a, p->na,
                         p->r, p->nr, p->c, p->nc, p->vc, p->nvc, p->v, p->nv, &cells, &clipped);
    if (answer != SECOND_DONE) {
        stop(run, answer);
        return;
    }
    run->steps++;
    run->accesses += cells;
    run->clipped += clipped;
}

/* A list of no words is refused exactly for its pieces. */
static int lengths_fit(const struct lent *p)
{
    uint32_t steps;
    uint64_t cells, clipped;

    return second_run(NULL, 0, 0, p->ds, p->nds, p->a, p->na, p->r, p->nr, p->c, p->nc,
                      p->vc, p->nvc, p->v, p->nv, &steps, &cells, &clipped) == SECOND_DONE;
}

uint32_t second_begin(uint32_t budget, uint32_t *run, size_t nrun)
{
    struct run begun = { .budget = budget };
    uint32_t steps;
    uint64_t accesses, clipped;

    if (nrun != SECOND_PARTS)
        return SECOND_BAD_LENGTH;
    return keep(&begun, run, &steps, &accesses, &clipped);
}

uint32_t second_part(const uint8_t *bytes, size_t nbytes,
                     uint8_t *ds, size_t nds, uint32_t *a, size_t na,
                     uint32_t *r, size_t nr, uint32_t *c, size_t nc,
                     uint32_t *vc, size_t nvc, uint8_t *v, size_t nv,
                     uint32_t *run, size_t nrun,
                     uint32_t *steps, uint64_t *accesses, uint64_t *clipped)
{
    const struct lent p = { ds, nds, a, na, r, nr, c, nc, vc, nvc, v, nv };
    struct run now;

    *steps = 0;
    *accesses = 0;
    *clipped = 0;
    if (nrun != SECOND_PARTS)
        return SECOND_BAD_LENGTH;
    now = tell(run);
    if (!now.over && !lengths_fit(&p))
        stop(&now, SECOND_BAD_LENGTH);
    for (size_t i = 0; i < nbytes && !now.over; i++) {
        now.bytes[now.left++] = bytes[i];
        if (now.left == TRIPLE)
            do_triple(&now, &p);
    }
    return keep(&now, run, steps, accesses, clipped);
}

uint32_t second_end(uint32_t *run, size_t nrun,
                    uint32_t *steps, uint64_t *accesses, uint64_t *clipped)
{
    struct run now;

    *steps = 0;
    *accesses = 0;
    *clipped = 0;
    if (nrun != SECOND_PARTS)
        return SECOND_BAD_LENGTH;
    now = tell(run);
    if (!now.over)
        stop(&now, now.left == 0 ? SECOND_DONE : SECOND_BAD_LIST);
    return keep(&now, run, steps, accesses, clipped);
}
