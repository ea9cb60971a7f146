/* slips.c - slips that are made on purpose: those of slipped.c in the second engine's calls, then those made here in what the engines handed
   over, in theirs alone or in both alike. */
#include "slips.h"

/* NO_SLIP, or the number of the slip that is made. */
static int slip;

/* Not the first call that could be spoiled, but one in the midst of others. */
enum { TURN = 20 };
static int met;

/* At which calls: any; a part that is done; one of a run that is over. */
enum when { ANY, DONE, KEPT };

/* A byte at this distance in all that is lent; or, of the bytes of a part, before them, the first, behind them. */
enum { BEFORE_BYTES = -3, FIRST_BYTE, BEHIND_BYTES };

static const struct {
    const char *name;
    enum wrong shows;
    enum when when;
    int both;
    long at;
} spoils[] = {
    {"the answer", ANSWER, ANY, 0, offsetof(struct side, said.answer)},
    {"the steps", STEPS, ANY, 0, offsetof(struct side, said.steps)},
    {"the accesses", ACCESSES, ANY, 0, offsetof(struct side, said.accesses)},
    {"the clipped components", CLIPPED, ANY, 0, offsetof(struct side, said.clipped)},
    {"a byte of ds", DS_WRONG + DS, DONE, 0, offsetof(struct side, room.ds[8191])},
    {"a word of a", DS_WRONG + A, DONE, 0, offsetof(struct side, room.a[31])},
    {"a word of r", DS_WRONG + R, DONE, 0, offsetof(struct side, room.r[31])},
    {"a word of c", DS_WRONG + C, DONE, 0, offsetof(struct side, room.c[3])},
    {"a word of vc", DS_WRONG + VC, DONE, 0, offsetof(struct side, room.vc[3])},
    {"a byte of v", DS_WRONG + V, DONE, 0, offsetof(struct side, room.v[511])},
    {"a word of the run", RUN_WORDS, ANY, 0, offsetof(struct side, run.w[3])},
    {"a piece of a run that is over, in both engines", STAYS, KEPT, 1, offsetof(struct side, room.vc[1])},
    {"the answer of a run that is over, in both engines", STAYS, KEPT, 1, offsetof(struct side, said.answer)},
    {"the steps of a run that is over, in both engines", STAYS, KEPT, 1, offsetof(struct side, said.steps)},
    {"the clipped components of a run that is over, in both engines", STAYS, KEPT, 1, offsetof(struct side, said.clipped)},
    {"a piece, in both engines", WHOLE, DONE, 1, offsetof(struct side, room.ds[4000])},
    {"the word of the left-over bytes' number, in both engines", FORM, ANY, 1, offsetof(struct side, run.w[6]) + 1},
    {"the low word of the clipped components, in both engines", FORM, ANY, 1, offsetof(struct side, run.w[10])},
    {"the high word of the clipped components, in both engines", FORM, ANY, 1, offsetof(struct side, run.w[11])},
    {"the first spare word of the run, in both engines", FORM, ANY, 1, offsetof(struct side, run.w[12])},
    {"the last word of the run, in both engines", FORM, ANY, 1, offsetof(struct side, run.w[15])},
    {"the word behind the run, in both engines", GUARDS, ANY, 1, offsetof(struct side, run.w[16])},
    {"the guard before the run, in both engines", GUARDS, ANY, 1, offsetof(struct side, run.guard0[GUARD - 1])},
    {"the guard behind the run, in both engines", GUARDS, ANY, 1, offsetof(struct side, run.guard1)},
    {"the guard of a piece, in both engines", GUARDS, ANY, 1, offsetof(struct side, room.guard3)},
    {"the guard before the steps, in both engines", GUARDS, ANY, 1, offsetof(struct side, said.guard0)},
    {"the guard behind the steps, in both engines", GUARDS, ANY, 1, offsetof(struct side, said.guard1)},
    {"the guard before the accesses, in both engines", GUARDS, ANY, 1, offsetof(struct side, said.guard2)},
    {"the guard behind the accesses, in both engines", GUARDS, ANY, 1, offsetof(struct side, said.guard3)},
    {"the guard behind the clipped components, in both engines", GUARDS, ANY, 1, offsetof(struct side, said.guard4)},
    {"the byte before a part, in both engines", GUARDS, DONE, 1, BEFORE_BYTES},
    {"a byte of a part, in both engines", BYTES, DONE, 1, FIRST_BYTE},
    {"the byte behind a part, in both engines", GUARDS, DONE, 1, BEHIND_BYTES},
};

enum { SPOILS = sizeof spoils / sizeof spoils[0] };

/* The last slip: a kind that never came. */
int slip_count(void) { return engine_slip_count + SPOILS + 1; }

static int is_engine_slip(int n) { return n >= FIRST_SLIP && n < FIRST_SLIP + engine_slip_count; }
static int is_spoil(int n) { return n >= FIRST_SLIP + engine_slip_count && n < slip_count(); }

const char *slip_name(int n)
{
    if (n == slip_count())
        return "a kind that never came";
    return is_engine_slip(n) ? engine_slips[n - FIRST_SLIP].name : spoils[n - FIRST_SLIP - engine_slip_count].name;
}

unsigned slip_shows(int n)
{
    if (n == slip_count())
        return BIT(NEVER);
    return is_engine_slip(n) ? engine_slips[n - FIRST_SLIP].shows : BIT(spoils[n - FIRST_SLIP - engine_slip_count].shows);
}

void make_slip(int n)
{
    slip = n;
    met = 0;
}

int slip_in_both(void) { return is_engine_slip(slip) && engine_slips[slip - FIRST_SLIP].both; }

int slip_in_kinds(void) { return slip == slip_count(); }

void of_slipped(const struct asked *q, struct side *s)
{
    if (is_engine_slip(slip))
        engine_slips[slip - FIRST_SLIP].call(q, s);
    else
        of_second(q, s);
}

static int fitting(enum when when, const struct asked *q, const struct both *b, const struct run_room *before)
{
    switch (when) {
    case DONE: return q->count > 0 && b->theirs.said.answer == VP1_DONE && !before->w[1];
    case KEPT: return before->w[1] == 1;
    default: return 1;
    }
}

static void flip(const struct asked *q, struct side *s, long at)
{
    uint8_t *bytes = s->page + GUARD + q->shift;

    switch (at) {
    case BEFORE_BYTES: bytes[-1] ^= 1; break;
    case FIRST_BYTE: bytes[0] ^= 1; break;
    case BEHIND_BYTES: bytes[q->count] ^= 1; break;
    default: ((uint8_t *)s)[at] ^= 1;
    }
}

void spoil(const struct asked *q, struct both *b, const struct run_room *before)
{
    int n = slip - FIRST_SLIP - engine_slip_count;

    if (!is_spoil(slip) || q->call == BEGIN || q->words != VP1_PARTS || !fitting(spoils[n].when, q, b, before) || ++met != TURN)
        return;
    flip(q, &b->theirs, spoils[n].at);
    if (spoils[n].both)
        flip(q, &b->ours, spoils[n].at);
}
