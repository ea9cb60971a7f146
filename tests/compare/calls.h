/* calls.h - one call, made of both engines and compared: its answer, its counts and every byte that was lent. */
#ifndef COMPARE_CALLS_H
#define COMPARE_CALLS_H

#include "rooms.h"
#include "vp1_state.h"

#include <stddef.h>
#include <stdint.h>

enum call { STEP, RUN, PLACES, SWAP, CALLS };

/* The buffer of places: room for the most that a triple touches, and more. */
enum { LEAST = 22, BUFFER = 40 };

struct lengths {
    size_t n[PIECES];
};

extern const struct lengths right;

/* What is asked: a triple, two triples (SWAP) or a list (RUN), with the lengths at which the pieces are lent. */
struct asked {
    enum call call;
    const uint32_t *words;
    size_t count;
    struct lengths lent;
    uint32_t budget; /* RUN */
    size_t buffer;   /* PLACES */
};

/* What was answered. Between the numbers that a call writes through pointers lie guards; what no call writes keeps the byte UNTOUCHED. A struct
   without gaps, so that two can be compared as bytes. */
enum { UNTOUCHED = 0xdd, COUNTS = 3 };

struct outcome {
    uint32_t answer, guard;
    uint64_t accesses, accesses_guard, clipped, clipped_guard;
    struct {
        uint32_t n, guard;
    } count[COUNTS]; /* RUN: steps; PLACES: reads, writes; SWAP: clash, place, writer */
    uint32_t buffer[BUFFER], last_guard[2];
};

/* What a call is named, and its counts. */
extern const char *const call_names[CALLS];
extern const char *const count_names[CALLS][COUNTS];

/* The highest answer that each call can give, and how often it gave each. A higher one is reported, and not counted. */
enum { ANSWERS = VP1_SPENT + 1 };
extern const uint32_t last_answer[CALLS];
extern unsigned long answers[CALLS][ANSWERS];

/* Whether two outcomes of one call are the same in all that it writes, guards and buffer too: as bytes, so that no number can be left out. */
int same_numbers(const struct outcome *x, const struct outcome *y);

/* Makes an outcome one that no call has written. */
void not_written(struct outcome *o);

struct asked a_step(const uint32_t *triple);

/* Makes the call of both engines, on their own rooms or (back) on their other ones, and compares. Hands over the second engine's outcome. Where
   the two differ, wrote where they must not, or gave an answer that the call cannot give, reports it and returns 0. */
int ask(const struct asked *q, int back, struct outcome *said);

#endif
