/* report.h - the first case that differs, whole, on standard output. */
#ifndef NAMES_REPORT_H
#define NAMES_REPORT_H

#include "calls.h"

#include <stdint.h>

/* What can be wrong: the two engines differ; what both handed over cannot be right; what all cases should have met was not met. */
enum wrong {
    ANSWER,
    LENGTH,
    WORD,
    OUTPUT,
    TEXT,
    GUARDS,
    NUMBER_GUARDS,
    UNKNOWN,
    NOT_ZERO,
    SET_GUARDS,
    BEHIND,
    REFUSED_OUTPUT,
    LENT_TEXT,
    TOO_LONG,
    LISTED,
    NOT_READ,
    OTHER_LINE,
    OTHER_WORD,
    NEVER,
    SELDOM,
    NO_LONGEST,
    WRONGS
};

#define BIT(wrong) (1u << (wrong))

/* Which case is run: kept up to date by the parts. */
struct at {
    const char *part;
    unsigned long number; /* of the case, from 1 */
    uint64_t seed, drawn; /* the run's seed; where the drawing stood when the case began */
    uint32_t word;        /* that the case is made from */
};

extern struct at at;

/* Begin a part, the n-th; and a case of it, made from the word. */
void begin_part(const char *part, int n, uint64_t seed);
void next_case(uint32_t word);

/* Prints the case and both outcomes, and remembers what is wrong. */
void report(const struct asked *q, unsigned wrong, struct handed ours, struct handed theirs);

/* The same of what was met too seldom: what it is, its number, and how often it was met. Returns 0. */
int report_missing(enum wrong wrong, const char *what, uint32_t n, unsigned long times);

/* What the last report found wrong, as bits; and these in words, with commas between. */
extern unsigned found;
void print_found(void);

/* Says nothing: only what was found is remembered. */
extern int quiet;

#endif
