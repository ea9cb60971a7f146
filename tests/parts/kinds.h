/* kinds.h - how often each kind of case came: every one that is promised must have come. */
#ifndef PARTS_KINDS_H
#define PARTS_KINDS_H

#include "calls.h"

/* Rows of counts; what each number of a row stands for is in kinds.c. */
enum kind {
    RUNS,
    WHOLE_LISTS,
    RAGGED_LISTS,
    BUDGETS,
    CUTS,
    SIZES,
    BEHIND,
    REFUSED_AT,
    SPENT_AT,
    AFTER_END,
    AFTER_STOP,
    WRONG_FIRST,
    WRONG_LATER,
    WRONG_EMPTY,
    WRONG_KEPT,
    OTHER_BEGIN,
    OTHER_PART,
    OTHER_END,
    COPIED,
    ODD_WORDS,
    BEGIN_ANSWERS,
    PART_ANSWERS,
    END_ANSWERS,
    KINDS
};

/* The most numbers in a row; how many the row of odd words has. */
enum { NUMBERS = 24, ODD = 24 };

/* Other numbers of words than the right one. */
enum { OTHERS = 4 };
extern const size_t other_words[OTHERS];

void forget_kinds(void);

/* Count one; what a call tells of itself; and a run's budget, for a list of so many triples. */
void count(enum kind kind, uint32_t n);
void count_call(const struct asked *q, const struct run_room *before, const struct side *after);
void count_budget(uint32_t budget, size_t triples);

/* Prints all, and returns 0 where a number never came. */
int every_kind(void);

#endif
