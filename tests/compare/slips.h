/* slips.h - slips that the harness makes on purpose, in what the engines handed over: each must be reported. */
#ifndef COMPARE_SLIPS_H
#define COMPARE_SLIPS_H

#include "calls.h"

/* Slips are numbered from FIRST_SLIP on. */
enum { NO_SLIP, FIRST_SLIP };

/* How many there are, what each spoils, and what the report must name. */
extern const int slip_count;
const char *slip_name(int n);
const char *slip_shows(int n);

/* Begins with the slip n. */
void make_slip(int n);

/* What an engine handed over. */
struct handed {
    struct room *room;
    struct outcome *said;
};

/* Makes the slip, if this call is the one. */
void spoil(const struct asked *q, int back, struct handed ours, struct handed theirs);

/* Whether the slip is that a kind of clash never came; and that no step of an opcode was done. */
int slip_in_kinds(void);
int slip_in_steps(void);

#endif
