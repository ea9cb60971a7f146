/* draw.h - the numbers that are drawn, and values at the edges. */
#ifndef COMPARE_DRAW_H
#define COMPARE_DRAW_H

#include <stddef.h>
#include <stdint.h>

/* Where the drawing stands. */
extern uint64_t drawn;

uint32_t draw(void);

/* A number below n, or an entry of a table. */
uint32_t below(uint32_t n);
#define ONE_OF(table) ((table)[below(sizeof(table) / sizeof(table)[0])])

void draw_bytes(uint8_t *bytes, size_t n);

uint8_t edge_byte(void);
uint32_t edge_word(void);

/* A word of $a: any; one at the edges of addr and limit; and one whose limit lies within one of addr + u. */
uint32_t any_a(void);
uint32_t edge_a(void);
uint32_t near_a(uint32_t u);

/* Sixteen bytes, drawn or from the edges, into a vector register of all rooms. */
void draw_vector(size_t n);
void edge_vector(size_t n);

#endif
