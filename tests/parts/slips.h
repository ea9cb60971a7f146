/* slips.h - slips that are made on purpose: each must be reported. */
#ifndef PARTS_SLIPS_H
#define PARTS_SLIPS_H

#include "calls.h"

/* Slips are numbered from FIRST_SLIP on. */
enum { NO_SLIP, FIRST_SLIP };

/* How many there are, what each does, and what the report must name: one of these bits. */
int slip_count(void);
const char *slip_name(int n);
unsigned slip_shows(int n);

/* Begins with the slip n. */
void make_slip(int n);

/* A call of the second engine, with the slip where it is one of its own; and whether that engine with its slip stands for both. */
void of_slipped(const struct asked *q, struct side *s);
int slip_in_both(void);

/* Makes the slip in what was handed over, if this call is the one. */
void spoil(const struct asked *q, struct both *b, const struct run_room *before);

/* Whether the slip is that a kind never came. */
int slip_in_kinds(void);

/* A slip of the second engine's own: slipped.c has them. */
struct engine_slip {
    const char *name;
    unsigned shows; /* as bits */
    int both;       /* in both engines alike */
    void (*call)(const struct asked *q, struct side *s);
};

extern const struct engine_slip engine_slips[];
extern const int engine_slip_count;

#endif
