/* report.h - the first case that differs, whole, on standard output: its list, its calls, and both outcomes of the last one. */
#ifndef PARTS_REPORT_H
#define PARTS_REPORT_H

#include "calls.h"

#include <stdint.h>

/* Which case is run: kept up to date by the parts of the comparison. */
struct at {
    const char *part;
    unsigned long number; /* of the case, from 1 */
    uint64_t seed, drawn; /* the run's seed; where the drawing stood when the case began */
};

extern struct at at;

/* Begin a part, the n-th; a case of it; and a call of the case. */
void begin_part(const char *part, int n, uint64_t seed);
void next_case(void);
void next_call(const struct asked *q);

/* Says in the report that something was done between two calls. */
void note(const char *what);

/* Prints the case and both outcomes, and remembers what is wrong. Returns 0. */
int report(unsigned wrong, const struct run_room *before, const char *x_name, const struct side *x, const char *y_name, const struct side *y);

/* The same of a kind of case that never came. */
int report_missing(const char *kind, int n);

/* What the last report found wrong, as bits; and these in words, with commas between. */
extern unsigned found;
void print_found(void);

/* Says nothing: only what was found is remembered. */
extern int quiet;

#endif
