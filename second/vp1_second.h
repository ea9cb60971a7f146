/* vp1_second.h - the calls of the second simulator of VP1's address and vector
 * units: one step, a list of steps, or a list that arrives in parts, over six pieces
 * lent by the caller; and the places that an instruction reads and writes. */
#ifndef VP1_SECOND_H
#define VP1_SECOND_H

#include <stddef.h>
#include <stdint.h>

/* The lengths that the six pieces must have, in elements. */
enum {
    SECOND_DS = 8192, /* bytes: DS[bank, cell, hilo] at bank * 512 + cell * 2 + hilo */
    SECOND_A = 32,
    SECOND_R = 32,
    SECOND_C = 4,
    SECOND_VC = 4,
    SECOND_V = 512    /* bytes: register n at 16 * n */
};

enum {
    SECOND_DONE = 0,
    SECOND_OTHER_UNIT = 1,   /* opcode below 0x80 or above 0xdf */
    SECOND_UNDOCUMENTED = 2,
    SECOND_BAD_SIDE = 3,     /* SRC2S is used and the side index is above 31 */
    SECOND_BAD_MASK = 4,     /* vcmpad, and the mask word is above 0x1ffff */
    SECOND_BAD_LENGTH = 5,
    SECOND_BAD_LIST = 6,     /* the number of words is no multiple of 3 */
    SECOND_BUDGET = 7        /* the budget is spent, the list is not finished */
};

/* Both calls return the answer and always write their counts: the steps that a run did,
 * the cells that they entered, and the components that they clipped. A component is
 * clipped where the true result of vadd, vsub, vneg, vabs or vadd9 lay outside the range
 * that it is clipped to; an end of the range is not outside. */
uint32_t second_step(uint32_t word, uint32_t side, uint32_t mask,
                     uint8_t *ds, size_t nds, uint32_t *a, size_t na,
                     uint32_t *r, size_t nr, uint32_t *c, size_t nc,
                     uint32_t *vc, size_t nvc, uint8_t *v, size_t nv,
                     uint64_t *accesses, uint64_t *clipped);

uint32_t second_run(const uint32_t *words, size_t nwords, uint32_t budget,
                    uint8_t *ds, size_t nds, uint32_t *a, size_t na,
                    uint32_t *r, size_t nr, uint32_t *c, size_t nc,
                    uint32_t *vc, size_t nvc, uint8_t *v, size_t nv,
                    uint32_t *steps, uint64_t *accesses, uint64_t *clipped);

/* ---- Lists in parts ---- */

/* A list that arrives as bytes, each word low byte first, cut anywhere: a begin, the
 * parts, an end. What is kept between them is in these words, which docs/PARTS.md
 * describes; their number must be SECOND_PARTS, or the call returns 5 and changes
 * nothing. All three return the answer; the part and the end always write the counts
 * of the run so far, 0 with a wrong number of words. */
enum { SECOND_PARTS = 16 };

uint32_t second_begin(uint32_t budget, uint32_t *run, size_t nrun);

uint32_t second_part(const uint8_t *bytes, size_t nbytes,
                     uint8_t *ds, size_t nds, uint32_t *a, size_t na,
                     uint32_t *r, size_t nr, uint32_t *c, size_t nc,
                     uint32_t *vc, size_t nvc, uint8_t *v, size_t nv,
                     uint32_t *run, size_t nrun,
                     uint32_t *steps, uint64_t *accesses, uint64_t *clipped);

uint32_t second_end(uint32_t *run, size_t nrun,
                    uint32_t *steps, uint64_t *accesses, uint64_t *clipped);

/* ---- Places ---- */

/* A place is what an instruction reads or writes as a whole. It has a number: its
 * kind's first number, plus its index among that kind. */
enum {
    SECOND_PLACE_A = 0,    /* 2n the low half of $a[n], 2n + 1 the high half */
    SECOND_PLACE_R = 64,
    SECOND_PLACE_V = 96,
    SECOND_PLACE_C = 128,  /* 2n the long pair of $c[n], 2n + 1 the short bit */
    SECOND_PLACE_VC = 136, /* 2n the signs of $vc[n], 2n + 1 the zeros */
    SECOND_PLACE_DS = 144  /* by the index in the store */
};

enum { SECOND_PLACES = 22 }; /* no instruction has more */

/* The places that the triple reads, then those that it writes, into the buffer, and
 * how many there are of each. Returns 0, or 5 (also for a buffer shorter than
 * SECOND_PLACES), or 1 to 4 as a step does; if not 0, both counts are 0 and the
 * buffer is as it was. */
uint32_t second_places(uint32_t word, uint32_t side, uint32_t mask,
                       const uint8_t *ds, size_t nds, const uint32_t *a, size_t na,
                       const uint32_t *r, size_t nr, const uint32_t *c, size_t nc,
                       const uint32_t *vc, size_t nvc, const uint8_t *v, size_t nv,
                       uint32_t *buffer, size_t nbuffer,
                       uint32_t *reads, uint32_t *writes);

/* Whether neither of two triples, both met in this state, writes a place that the
 * other reads or writes (clash 0), or which place they clash at first and which of
 * them writes it (clash 1, writer 1 or 2). Returns 0, or 5, or 1 to 4 for the first
 * triple, or 1 to 4 for the second; if not 0, all three numbers are 0. */
uint32_t second_may_swap(uint32_t word1, uint32_t side1, uint32_t mask1,
                         uint32_t word2, uint32_t side2, uint32_t mask2,
                         const uint8_t *ds, size_t nds, const uint32_t *a, size_t na,
                         const uint32_t *r, size_t nr, const uint32_t *c, size_t nc,
                         const uint32_t *vc, size_t nvc, const uint8_t *v, size_t nv,
                         uint32_t *clash, uint32_t *place, uint32_t *writer);

#endif
