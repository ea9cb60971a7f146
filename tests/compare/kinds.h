/* kinds.h - the kinds of clashes, counted. */
#ifndef COMPARE_KINDS_H
#define COMPARE_KINDS_H

#include <stdint.h>

/* Counts a clash at the place, which the writer (1 or 2) writes; `zeros` says whether the two clash at the next place too. */
void count_kind(uint32_t place, uint32_t writer, int zeros);

void forget_kinds(void);

/* Prints the counts; returns 0, and says which, where there is none of a kind that can occur. */
int print_kinds(void);

#endif
