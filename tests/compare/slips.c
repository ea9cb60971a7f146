/* slips.c - slips that the harness makes on purpose. Most are in the second engine's outcome; some are in both alike, to try what is not a
   comparison of the two. */
#include "slips.h"

/* NO_SLIP, or the number of the slip that is made. */
static int slip;

/* Not the first call that could be spoiled, but one in the midst of others. */
enum { TURN = 20 };
static int met;

enum where {
    NUMBER,         /* or the guard of one: of theirs, and of both */
    NUMBER_OF_BOTH,
    UNKNOWN_ANSWER,
    LISTED,
    REST,
    REST_OF_BOTH,
    PIECE,
    GUARD_OF_THEIRS,
    GUARD_OF_BOTH,
    REFUSED,
    NOT_BEGUN,
    ASKED,
    ORDER,
    KIND_COUNT,
    STEP_COUNT
};

/* The calls, as bits. */
enum { STEPS = 1 << STEP, RUNS = 1 << RUN, LISTS = 1 << PLACES, SWAPS = 1 << SWAP, ALL = STEPS | RUNS | LISTS | SWAPS };

static const struct {
    const char *name, *shows;
    unsigned calls;
    enum where where;
    size_t at; /* a number's distance in the outcome, or the piece */
} slips[] = {
    {"the answer of a step", "answer", STEPS, NUMBER, offsetof(struct outcome, answer)},
    {"the answer of a run", "answer", RUNS, NUMBER, offsetof(struct outcome, answer)},
    {"the answer of places", "answer", LISTS, NUMBER, offsetof(struct outcome, answer)},
    {"the answer of may_swap", "answer", SWAPS, NUMBER, offsetof(struct outcome, answer)},
    {"the accesses of a step", "accesses", STEPS, NUMBER, offsetof(struct outcome, accesses)},
    {"the accesses of a run", "accesses", RUNS, NUMBER, offsetof(struct outcome, accesses)},
    {"the clipped components of a step", "clipped", STEPS, NUMBER, offsetof(struct outcome, clipped)},
    {"the clipped components of a run", "clipped", RUNS, NUMBER, offsetof(struct outcome, clipped)},
    {"the steps of a run", "steps", RUNS, NUMBER, offsetof(struct outcome, count[0].n)},
    {"the number of places read", "reads", LISTS, NUMBER, offsetof(struct outcome, count[0].n)},
    {"the number of places written", "writes", LISTS, NUMBER, offsetof(struct outcome, count[1].n)},
    {"a place's number", "places", LISTS, LISTED, 0},
    {"the buffer behind the places", "places", LISTS, REST, 0},
    {"clash", "clash", SWAPS, NUMBER, offsetof(struct outcome, count[0].n)},
    {"the place of a clash", "place", SWAPS, NUMBER, offsetof(struct outcome, count[1].n)},
    {"the writer of a clash", "writer", SWAPS, NUMBER, offsetof(struct outcome, count[2].n)},
    {"a byte of ds", "ds", STEPS, PIECE, DS},
    {"a word of a", "a", STEPS, PIECE, A},
    {"a word of r", "r", STEPS, PIECE, R},
    {"a word of c", "c", STEPS, PIECE, C},
    {"a word of vc", "vc", STEPS, PIECE, VC},
    {"a byte of v", "v", STEPS, PIECE, V},
    {"a byte of ds after a run", "ds", RUNS, PIECE, DS},
    {"a guard", "guards", ALL, GUARD_OF_THEIRS, 0},
    {"a guard, in both engines", "guards as they were set", ALL, GUARD_OF_BOTH, 0},
    {"a piece of a refused step, in both engines", "pieces that were to stay", STEPS, REFUSED, A},
    {"a piece of a run that is not begun, in both engines", "pieces that were to stay", RUNS, NOT_BEGUN, V},
    {"a piece that was lent to be read, in both engines", "pieces that were to stay", LISTS | SWAPS, ASKED, VC},
    {"the state that another order or way leaves, in both engines", "c", STEPS, ORDER, C},
    {"a guard between numbers", "guards between numbers", ALL, NUMBER, offsetof(struct outcome, accesses_guard)},
    {"the guard before the accesses, in both engines", "guards as they were set", STEPS, NUMBER_OF_BOTH, offsetof(struct outcome, guard)},
    {"the guard behind the accesses, in both engines", "guards as they were set", RUNS, NUMBER_OF_BOTH, offsetof(struct outcome, accesses_guard)},
    {"the guard behind clipped, in both engines", "guards as they were set", STEPS, NUMBER_OF_BOTH, offsetof(struct outcome, clipped_guard)},
    {"the guard behind steps, in both engines", "guards as they were set", RUNS, NUMBER_OF_BOTH, offsetof(struct outcome, count[0].guard)},
    {"the guard behind writes, in both engines", "guards as they were set", LISTS, NUMBER_OF_BOTH, offsetof(struct outcome, count[1].guard)},
    {"the guard behind writer, in both engines", "guards as they were set", SWAPS, NUMBER_OF_BOTH, offsetof(struct outcome, count[2].guard)},
    {"the buffer behind the places, in both engines", "the buffer behind the places", LISTS, REST_OF_BOTH, 0},
    {"an answer that the call cannot give, in both engines", "an answer that the call cannot give", ALL, UNKNOWN_ANSWER, 0},
    {"a kind of clash that never came", "a kind of clash", 0, KIND_COUNT, 0},
    {"an opcode of which no step was done", "steps of an opcode", 0, STEP_COUNT, 0},
};

const int slip_count = sizeof slips / sizeof slips[0];

const char *slip_name(int n) { return slips[n - FIRST_SLIP].name; }
const char *slip_shows(int n) { return slips[n - FIRST_SLIP].shows; }

void make_slip(int n)
{
    slip = n;
    met = 0;
}

/* Whether the call is one on which the slip would show as what it is. */
static int fitting(enum where where, int back, uint32_t answer)
{
    switch (where) {
    case LISTED: return answer == VP1_DONE;
    case REFUSED: return answer != VP1_DONE && !back;
    case NOT_BEGUN: return answer == VP1_LENGTHS || answer == VP1_RAGGED;
    case ASKED: return !back;
    case ORDER: return back;
    default: return 1;
    }
}

/* The last byte of a piece. */
static void flip(struct room *room, size_t p) { ((uint8_t *)room)[shapes[p].offset + shapes[p].length * shapes[p].width - 1] ^= 1; }

static void flip_number(struct outcome *o, size_t at) { ((uint8_t *)o)[at] ^= 1; }

static void do_slip(enum where where, size_t at, enum call call, struct handed ours, struct handed theirs)
{
    switch (where) {
    case NUMBER_OF_BOTH: flip_number(ours.said, at); /* fall through */
    case NUMBER: flip_number(theirs.said, at); break;
    case UNKNOWN_ANSWER: ours.said->answer = theirs.said->answer = last_answer[call] + 1; break;
    case LISTED: theirs.said->buffer[0] ^= 1; break;
    case REST_OF_BOTH: ours.said->buffer[BUFFER - 1] ^= 1; /* fall through */
    case REST: theirs.said->buffer[BUFFER - 1] ^= 1; break;
    case PIECE: flip(theirs.room, at); break;
    case GUARD_OF_BOTH: ours.room->guard3[0] ^= 1; /* fall through */
    case GUARD_OF_THEIRS: theirs.room->guard3[0] ^= 1; break;
    case KIND_COUNT:
    case STEP_COUNT: break;
    default:
        flip(ours.room, at);
        flip(theirs.room, at);
    }
}

void spoil(const struct asked *q, int back, struct handed ours, struct handed theirs)
{
    enum where where;

    if (slip == NO_SLIP)
        return;
    where = slips[slip - FIRST_SLIP].where;
    if (!(slips[slip - FIRST_SLIP].calls >> q->call & 1) || !fitting(where, back, theirs.said->answer) || ++met != TURN)
        return;
    do_slip(where, slips[slip - FIRST_SLIP].at, q->call, ours, theirs);
}

static int slip_is(enum where where) { return slip != NO_SLIP && slips[slip - FIRST_SLIP].where == where; }

int slip_in_kinds(void) { return slip_is(KIND_COUNT); }
int slip_in_steps(void) { return slip_is(STEP_COUNT); }
