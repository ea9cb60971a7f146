/* slips.c - slips that the harness makes on purpose. Some are in the second engine's outcome alone; the others are in both alike, to try what is
   not a comparison of the two, or in what was counted. */
#include "slips.h"

/* NO_SLIP, or the number of the slip that is made. */
static int slip;

/* Not the first call that could be spoiled, but one in the midst of others. */
enum { TURN = 20 };
static int met;

/* What is spoiled: some bits of a byte. */
enum where {
    NUMBER_OF_ANSWER,
    NUMBER, /* the length or the word; its high byte; the guards at its sides */
    HIGH_BYTE,
    FRONT,
    BACK,
    FIRST, /* of what is lent: a byte, and one of the guard at each side */
    LAST,
    GUARD_BEFORE,
    GUARD_BEHIND,
    COUNT
};

/* At which calls a slip would show as what it is. */
enum when { ALWAYS, DONE, REFUSED, ROOM_LEFT, SURE, FIRST_TIME, AGAIN };

enum { THEIR_OWN, BOTH };

static const struct slip {
    const char *name;
    enum wrong shows;
    enum call call;
    enum when when;
    enum where where;
    uint8_t bits;
    int both;
} slips[] = {
    {"the answer of a writing", ANSWER, WRITE, ALWAYS, NUMBER_OF_ANSWER, 1, THEIR_OWN},
    {"the answer of a reading", ANSWER, READ, ALWAYS, NUMBER_OF_ANSWER, 1, THEIR_OWN},
    {"a line's length", LENGTH, WRITE, ALWAYS, NUMBER, 1, THEIR_OWN},
    {"the word that was read", WORD, READ, ALWAYS, NUMBER, 1, THEIR_OWN},
    {"a byte of a line", OUTPUT, WRITE, DONE, FIRST, 1, THEIR_OWN},
    {"a byte behind a line", OUTPUT, WRITE, ROOM_LEFT, LAST, 1, THEIR_OWN},
    {"a byte of a refused output", OUTPUT, WRITE, REFUSED, LAST, 1, THEIR_OWN},
    {"a byte of a text", TEXT, READ, DONE, LAST, 1, THEIR_OWN},
    {"the guard before an output", GUARDS, WRITE, ALWAYS, GUARD_BEFORE, 1, THEIR_OWN},
    {"the guard behind an output", GUARDS, WRITE, ALWAYS, GUARD_BEHIND, 1, THEIR_OWN},
    {"the guard before a text", GUARDS, READ, ALWAYS, GUARD_BEFORE, 1, THEIR_OWN},
    {"the guard behind a text", GUARDS, READ, ALWAYS, GUARD_BEHIND, 1, THEIR_OWN},
    {"the guard before a length", NUMBER_GUARDS, WRITE, ALWAYS, FRONT, 1, THEIR_OWN},
    {"the guard behind a word", NUMBER_GUARDS, READ, ALWAYS, BACK, 1, THEIR_OWN},
    {"an answer that writing cannot give, in both engines", UNKNOWN, WRITE, ALWAYS, NUMBER_OF_ANSWER, 4, BOTH},
    {"an answer that reading cannot give, in both engines", UNKNOWN, READ, ALWAYS, NUMBER_OF_ANSWER, 4, BOTH},
    {"the length of a refused writing, in both engines", NOT_ZERO, WRITE, REFUSED, NUMBER, 1, BOTH},
    {"the word of a refused reading, in both engines", NOT_ZERO, READ, REFUSED, HIGH_BYTE, 1, BOTH},
    {"the guard before an output, in both engines", SET_GUARDS, WRITE, ALWAYS, GUARD_BEFORE, 1, BOTH},
    {"the guard behind an output, in both engines", SET_GUARDS, WRITE, ALWAYS, GUARD_BEHIND, 1, BOTH},
    {"the guard before a text, in both engines", SET_GUARDS, READ, ALWAYS, GUARD_BEFORE, 1, BOTH},
    {"the guard behind a text, in both engines", SET_GUARDS, READ, ALWAYS, GUARD_BEHIND, 1, BOTH},
    {"the guard behind a length, in both engines", SET_GUARDS, WRITE, ALWAYS, BACK, 1, BOTH},
    {"the guard before a word, in both engines", SET_GUARDS, READ, ALWAYS, FRONT, 1, BOTH},
    {"a byte behind a line, in both engines", BEHIND, WRITE, ROOM_LEFT, LAST, 1, BOTH},
    {"a byte of a refused output, in both engines", REFUSED_OUTPUT, WRITE, REFUSED, FIRST, 1, BOTH},
    {"a byte of a text, in both engines", LENT_TEXT, READ, DONE, FIRST, 1, BOTH},
    {"a length above the longest, in both engines", TOO_LONG, WRITE, DONE, NUMBER, 0x20, BOTH},
    {"a documented word that is refused, in both engines", LISTED, WRITE, SURE, NUMBER_OF_ANSWER, VP1_SHORT, BOTH},
    {"a written line that is refused, in both engines", NOT_READ, READ, SURE, NUMBER_OF_ANSWER, VP1_AMISS, BOTH},
    {"another word for a line, in both engines", OTHER_LINE, READ, FIRST_TIME, HIGH_BYTE, 1, BOTH},
    {"another word for a line that was read before, in both engines", OTHER_WORD, READ, AGAIN, NUMBER, 1, BOTH},
    {"an answer that never came", NEVER, CALLS, ALWAYS, COUNT, 0, BOTH},
    {"an answer that seldom came to damaged lines", SELDOM, CALLS, ALWAYS, COUNT, 0, BOTH},
    {"a longest line that never came", NO_LONGEST, CALLS, ALWAYS, COUNT, 0, BOTH},
};

const int slip_count = sizeof slips / sizeof slips[0];

const char *slip_name(int n) { return slips[n - FIRST_SLIP].name; }
enum wrong slip_shows(int n) { return slips[n - FIRST_SLIP].shows; }

void make_slip(int n)
{
    slip = n;
    met = 0;
}

static int fitting(enum when when, const struct asked *q, const struct outcome *said)
{
    int done = said->answer == VP1_DONE;

    switch (when) {
    case DONE: return done;
    case REFUSED: return !done && lent(q) > 0;
    case ROOM_LEFT: return done && said->number < q->room;
    case SURE: return q->must == SUCCESS;
    case FIRST_TIME: return done && q->must != THIS;
    case AGAIN: return q->must == THIS;
    default: return 1;
    }
}

/* Where the byte lies; the numbers have their low byte first. */
static uint8_t *byte_at(enum where where, size_t n, struct handed h)
{
    switch (where) {
    case NUMBER_OF_ANSWER: return (uint8_t *)&h.said->answer;
    case NUMBER: return (uint8_t *)&h.said->number;
    case HIGH_BYTE: return (uint8_t *)&h.said->number + 3;
    case FRONT: return (uint8_t *)&h.said->front;
    case BACK: return (uint8_t *)&h.said->back;
    case FIRST: return h.page + GUARD;
    case LAST: return h.page + GUARD + n - 1;
    case GUARD_BEFORE: return h.page + GUARD - 1;
    default: return h.page + GUARD + n;
    }
}

void spoil(const struct asked *q, struct handed ours, struct handed theirs)
{
    const struct slip *s;

    if (slip == NO_SLIP)
        return;
    s = &slips[slip - FIRST_SLIP];
    if (s->call != q->call || !fitting(s->when, q, theirs.said) || ++met != TURN)
        return;
    *byte_at(s->where, lent(q), theirs) ^= s->bits;
    if (s->both)
        *byte_at(s->where, lent(q), ours) ^= s->bits;
}

unsigned long spoilt(unsigned long count, enum wrong shows)
{
    return slip != NO_SLIP && slips[slip - FIRST_SLIP].where == COUNT && slips[slip - FIRST_SLIP].shows == shows ? 0 : count;
}
