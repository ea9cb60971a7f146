/* parts.h - the parts of the comparison. Each runs its cases and returns 0 where one of them differs. */
#ifndef COMPARE_PARTS_H
#define COMPARE_PARTS_H

#include <stdint.h>

int opcodes(void);
int all_opcodes(void);
int lengths(void);
int lists(void);
int places(void);
int pairs(void);
int ends(void);
int sums(void);

/* Prints how many pairs were free, and how many clashed at each kind of place; returns 0 where there is none of a kind that can occur. */
int print_pairs(void);

/* Fewer cases, for the slips: n, or a small part of it. */
extern int brief;
unsigned long share(unsigned long n);

/* Redraws the state that the triple's fields name, and the whole of it at every 1,024th case. */
void refresh(const uint32_t *triple);

/* One step; if it is done, the state that it leaves is the next case's. Returns 0 where it differs. */
int step_on(const uint32_t *triple);

/* Bends a triple, and the state, towards what drawn numbers seldom reach: one of BENDS ways, by k. */
enum { BENDS = 35 };
void bend(uint32_t *triple, unsigned long k);

#endif
