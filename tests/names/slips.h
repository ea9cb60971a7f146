/* slips.h - slips that the harness makes on purpose, in what the engines handed over: each must be reported. */
#ifndef NAMES_SLIPS_H
#define NAMES_SLIPS_H

#include "report.h"

/* Slips are numbered from FIRST_SLIP on. */
enum { NO_SLIP, FIRST_SLIP };

/* How many there are, what each spoils, and what the report must name. */
extern const int slip_count;
const char *slip_name(int n);
enum wrong slip_shows(int n);

/* Begins with the slip n. */
void make_slip(int n);

/* Makes the slip, if this call is the one. */
void spoil(const struct asked *q, struct handed ours, struct handed theirs);

/* A count; or 0, if the slip is that it shows this. */
unsigned long spoilt(unsigned long count, enum wrong shows);

#endif
