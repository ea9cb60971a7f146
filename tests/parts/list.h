/* list.h - the list of a case, how it is drawn, and how it is fed to both engines in parts. */
#ifndef PARTS_LIST_H
#define PARTS_LIST_H

#include "calls.h"

/* The longest list, in triples: more than ten blocks. */
enum { TRIPLES = 10 * BLOCK + 20 };

/* The list as bytes, which may end inside a triple, and its whole triples as words. */
struct list {
    uint32_t budget;
    size_t triples, count;
    uint32_t words[3 * TRIPLES];
    uint8_t bytes[MOST];
};

extern struct list list;

/* A list of n triples, one of them refused in one list of four, and a budget; one list of eight ends inside a triple. */
void draw_list(uint32_t n);

/* Lays the words out as bytes, then `more` bytes, and draws no budget: what a list needs that was changed. */
void lay_bytes(size_t more);

/* Begins a case: the state before it for both engines; and ends it: the state that it left is the next one's. */
void begin_case(struct both *b);
void end_case(const struct both *b);

/* The calls, on the case's list; each returns 0 where the engines differ. */
int begin(struct both *b);
int part(struct both *b, size_t from, size_t count);
int part_with(struct both *b, size_t from, size_t count, const size_t n[PIECES]);
int end(struct both *b);

/* The bytes from the one to the other, cut in a way that is drawn. */
int feed(struct both *b, size_t from, size_t to);

/* The end; then that all is as after one list call; then a few calls more, which must change nothing. */
int finish(struct both *b);

#endif
