/* parts.h - the parts of the comparison, and what they share. Each runs its cases and returns 0 where one of them differs. */
#ifndef NAMES_PARTS_H
#define NAMES_PARTS_H

#include "calls.h"

int words(void);
int outputs(void);
int damaged(void);
int any_bytes(void);
int texts(void);

/* Fewer cases, for the slips: n, or a small part of it. */
extern int brief;
unsigned long share(unsigned long n);

/* A word of a documented opcode: the k-th, by turns, or any; the rest of it is drawn. */
uint32_t draw_word_of(unsigned long k);
uint32_t draw_word(void);

/* A text that is put together. */
struct text {
    size_t n;
    uint8_t bytes[MOST];
};

void add(struct text *t, const void *bytes, size_t n);
void add_string(struct text *t, const char *string);
void add_many(struct text *t, uint8_t byte, size_t n);

/* A byte that lines are made of. */
uint8_t line_byte(void);

/* Reads the text, in both engines, and writes what was read. */
int read_case(const struct text *t);

#endif
