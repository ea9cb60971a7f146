/* report.h - the first case that differs, whole, on standard output. */
#ifndef COMPARE_REPORT_H
#define COMPARE_REPORT_H

#include "calls.h"
#include "rooms.h"

/* Which case is run: kept up to date by the parts. */
struct at {
    const char *part;
    unsigned long number; /* of the case, from 1 */
    uint64_t seed, drawn; /* the run's seed; where the drawing stood when the case began */
    const char *turn;     /* of a case with several calls, which one it is, and all the words of the case; else NULL */
    const uint32_t *words;
    size_t count;
};

extern struct at at;

/* Begin a part, the n-th, and a case of it; and say which call of a case comes next. */
void begin_part(const char *part, int n, uint64_t seed);
void next_case(void);
void next_turn(const char *turn, const uint32_t *words, size_t count);

/* What is wrong: the two sides differ; a guard is changed; the buffer behind the list of places is; a call that refuses or only asks changed a
   piece; the answer is none that the call can give. */
enum { ENGINES = 1, GUARDS = 2, BEHIND = 4, CHANGED = 8, UNKNOWN = 16 };

struct side {
    const char *name;
    const struct room *room;
    const struct outcome *said;
};

/* Prints the case and both outcomes, and remembers what differed. */
void report(const struct asked *q, unsigned wrong, struct side x, struct side y);

/* What the last report said that differed, in words; empty before the first one. */
extern char differed[512];

/* Says only what differed, and not the whole case. */
extern int quiet;

#endif
