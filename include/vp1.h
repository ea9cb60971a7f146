/* VP1's address and vector units: one instruction, a list of them, or a list that arrives in parts as bytes, on six pieces of memory that the
   caller lends. The six pieces, what the caller owes and the numbers of the answers are in vp1_state.h. The calls are in libvp1.a, which needs no
   other library but memcpy and memset of C's own; questions about instructions, which places one touches and whether two may be swapped, are in vp1_order.h.
   Below the calls, vp1_state_step, vp1_state_run and vp1_state_part are the same over struct vp1_state, which holds the six pieces together;
   vp1_parts_begin and vp1_parts_end over struct vp1_parts, which is lent to a part too and holds what is kept of a run in parts. */
#ifndef VP1_H
#define VP1_H

#include "vp1_state.h"

#ifdef __cplusplus
extern "C" {
#endif

/* One triple: the instruction word, the side index (SRC2S), the side mask word (bit 16: the mask in bits 0-15 is valid). A side input that
   the instruction does not use is ignored.
   Answers 0 to 5. With any number but 0 the six pieces are untouched.
   *accesses is written always: the (bank, cell) pairs that a load or store entered, each counted once, at most 16; 0 with any number but 0.
   *clipped is written always: the components of a vadd, vsub, vneg, vabs or vadd9 whose true result, before it was clipped, lay outside -128 to 127
   (signed forms) or 0 to 255 (unsigned forms and vadd9), at most 16, whether or not flags are written. A result on an end of the range is not
   outside. 0 for every other instruction, vclip too, and with any number but 0. */
uint32_t vp1_step(uint32_t word, uint32_t side, uint32_t mask,
                  uint8_t *ds, size_t ds_len,
                  uint32_t *a, size_t a_len,
                  uint32_t *r, size_t r_len,
                  uint32_t *c, size_t c_len,
                  uint32_t *vc, size_t vc_len,
                  uint8_t *v, size_t v_len,
                  uint64_t *accesses, uint64_t *clipped);

/* A list of triples of words, in order, at most `budget` of them. It stops at the first triple that is refused, with that triple's number.
   Answers 0 to 7. With 5 and 6 the six pieces are untouched; with 1 to 4 and 7 they are as the steps done left them.
   *steps, *accesses and *clipped are written always: the triples done, and their accesses and clipped components as above, added up. A refused
   triple counts in none; with 5 and 6 all three are 0. *steps is at most `budget`, *accesses and *clipped are each at most 16 times *steps. */
uint32_t vp1_run(const uint32_t *words, size_t words_len, uint32_t budget,
                 uint8_t *ds, size_t ds_len,
                 uint32_t *a, size_t a_len,
                 uint32_t *r, size_t r_len,
                 uint32_t *c, size_t c_len,
                 uint32_t *vc, size_t vc_len,
                 uint8_t *v, size_t v_len,
                 uint32_t *steps, uint64_t *accesses, uint64_t *clipped);

/* A list that arrives in parts: its bytes, each word low byte first, cut anywhere. vp1_begin, then vp1_part for each part, then vp1_end.
   However the bytes of whole triples are cut, the pieces, the steps, the counts and the answer of vp1_end are those of vp1_run on the whole
   list under the same budget, if the pieces have their right lengths and nobody else changes them between the parts.

   What is kept between the calls is in the sixteen words of `run`, which the caller lends to each call. What they hold is said in docs/PARTS.md;
   a caller need not know it. They may be copied: with a copy of the pieces, a copy is the same run at that point. Any contents are some run, so
   nothing is undefined, but begin with vp1_begin: words out of the bounds of every run are taken for one that was refused with 5 before its
   first step, and sixteen words of 0 for one with budget 0.

   *steps, *accesses and *clipped are written always: the triples done in the whole run so far, and their accesses and clipped components. They
   stand whatever the answer is, with 5 and 6 too.
   A `run` of another length than 16 gives 5 in each call: all that is lent is untouched, and *steps, *accesses and *clipped are 0. */

/* Begins a run. Answers 0, and 5 for a `run` of another length. */
uint32_t vp1_begin(uint32_t budget, uint32_t *run, size_t run_len);

/* One part: any number of bytes, also 0 (`bytes` is not null then either). A triple is done when its twelfth byte arrives. Answers 0 while all is well. Answers 1 to 4 and 7 as
   vp1_run does, with the pieces as the steps done left them, and 5 if a piece has another length: then the run is over, and its answer is kept.
   Of a run that is over, every vp1_part and vp1_end gives the same answer and counts and changes nothing, until a new run is begun; this comes
   before 5. */
uint32_t vp1_part(const uint8_t *bytes, size_t bytes_len,
                  uint8_t *ds, size_t ds_len,
                  uint32_t *a, size_t a_len,
                  uint32_t *r, size_t r_len,
                  uint32_t *c, size_t c_len,
                  uint32_t *vc, size_t vc_len,
                  uint8_t *v, size_t v_len,
                  uint32_t *run, size_t run_len,
                  uint32_t *steps, uint64_t *accesses, uint64_t *clipped);

/* The end. Answers what is kept; else 0, or 6 if bytes are left over that make no whole triple: the steps done stand. The run is over then, and this
   answer is kept too. */
uint32_t vp1_end(uint32_t *run, size_t run_len, uint32_t *steps, uint64_t *accesses, uint64_t *clipped);

/* The calls over a state as a whole, and over a run's words as a whole: the same answers, but no VP1_LENGTHS for a length (a part and the
   end can still tell one that is kept, or that the words are no run's); the same bytes and counts. The caller owes the same: no null pointer, and nothing that is written overlaps anything else. */
static inline uint32_t vp1_state_step(struct vp1_state *s, uint32_t word, uint32_t side, uint32_t mask, struct vp1_counts *counts)
{
    return vp1_step(word, side, mask, s->ds, VP1_DS, s->a, VP1_A, s->r, VP1_R, s->c, VP1_C, s->vc, VP1_VC, s->v, VP1_V,
                    &counts->accesses, &counts->clipped);
}

static inline uint32_t vp1_state_run(struct vp1_state *s, const uint32_t *words, size_t words_len, uint32_t budget,
                                     uint32_t *steps, struct vp1_counts *counts)
{
    return vp1_run(words, words_len, budget, s->ds, VP1_DS, s->a, VP1_A, s->r, VP1_R, s->c, VP1_C, s->vc, VP1_VC, s->v, VP1_V,
                   steps, &counts->accesses, &counts->clipped);
}

static inline uint32_t vp1_parts_begin(struct vp1_parts *run, uint32_t budget)
{
    return vp1_begin(budget, run->words, VP1_PARTS);
}

static inline uint32_t vp1_state_part(struct vp1_state *s, struct vp1_parts *run, const uint8_t *bytes, size_t bytes_len,
                                      uint32_t *steps, struct vp1_counts *counts)
{
    return vp1_part(bytes, bytes_len, s->ds, VP1_DS, s->a, VP1_A, s->r, VP1_R, s->c, VP1_C, s->vc, VP1_VC, s->v, VP1_V,
                    run->words, VP1_PARTS, steps, &counts->accesses, &counts->clipped);
}

static inline uint32_t vp1_parts_end(struct vp1_parts *run, uint32_t *steps, struct vp1_counts *counts)
{
    return vp1_end(run->words, VP1_PARTS, steps, &counts->accesses, &counts->clipped);
}

#ifdef __cplusplus
}
#endif

#endif
