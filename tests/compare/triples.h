/* triples.h - what lists are made of: opcodes, triples that are refused, budgets. */
#ifndef COMPARE_TRIPLES_H
#define COMPARE_TRIPLES_H

#include <stdint.h>

/* Five of eight triples load, store or add, one clips sums and the like, two are of any opcode: all opcodes alike would
   seldom store what is loaded, and clip little. */
uint32_t list_opcode(void);

/* Makes a triple one that is refused with 1, 2, 3 or 4, or is of any opcode. */
void refuse(uint32_t *triple);

/* A budget for a list of n triples: nothing, less, as many, more, the most. */
uint32_t draw_budget(uint32_t n);

#endif
