/* Questions about the instructions of VP1's address and vector units: which places one touches, and whether two may be swapped. The six pieces,
   what the caller owes and the numbers of the answers are in vp1_state.h. The calls are in libvp1_order.a, and nothing here needs another library but C's own.
   Below the two calls, vp1_state_places and vp1_state_may_swap are the calls over struct vp1_state, which holds the six pieces together. */
#ifndef VP1_ORDER_H
#define VP1_ORDER_H

#include "vp1_state.h"

#ifdef __cplusplus
extern "C" {
#endif

/* A place is what an instruction reads or writes as a whole. By number:

        0 to   63   half of $a[n]: 2n the low half (addr), 2n + 1 the high half (limit and stride)
       64 to   95   $r[n]: 64 + n
       96 to  127   $v[n]: 96 + n
      128 to  135   flags of $c[n]: 128 + 2n sign and zero, 129 + 2n end
      136 to  143   flags of $vc[n]: 136 + 2n the signs, 137 + 2n the zeros
      144 to 8335   a byte of the data store: 144 + its index in ds

   VP1_PLACES is the most that one instruction touches, and the least length of the buffer of vp1_places. */
enum { VP1_PLACES = 22 };

/* The places that one triple would read and write in this state. The six pieces are only read.
   Answers 0 to 5; VP1_LENGTHS also for a buffer of fewer than VP1_PLACES numbers. With any number but 0 the buffer is untouched.
   *reads and *writes are written always: how many places are read, and how many written; both 0 with any number but 0. The buffer's first
   *reads numbers are the places read, the next *writes those written, in the order of docs/PLACES.md; the rest of it keeps its values. A place
   that an instruction names twice is listed twice. */
uint32_t vp1_places(uint32_t word, uint32_t side, uint32_t mask,
                    const uint8_t *ds, size_t ds_len,
                    const uint32_t *a, size_t a_len,
                    const uint32_t *r, size_t r_len,
                    const uint32_t *c, size_t c_len,
                    const uint32_t *vc, size_t vc_len,
                    const uint8_t *v, size_t v_len,
                    uint32_t *buffer, size_t buffer_len,
                    uint32_t *reads, uint32_t *writes);

/* May two triples be swapped in this state? The six pieces are only read.
   Answers 0 to 5: a refusal of the first triple, else of the second, both met in the same state.
   *clash, *place and *writer are written always. *clash is 0 where the two are free: neither writes a place that the other reads or writes, so
   that both orders end in one state. Else it is 1, *place is the first place that clashes, and *writer says which of the two writes it: 1, a
   place that the first writes and the second touches; 2, where there is none of those, one that the second writes and the first touches.
   All three are 0 with any number but 0, and *place and *writer where the two are free. */
uint32_t vp1_may_swap(uint32_t word1, uint32_t side1, uint32_t mask1,
                      uint32_t word2, uint32_t side2, uint32_t mask2,
                      const uint8_t *ds, size_t ds_len,
                      const uint32_t *a, size_t a_len,
                      const uint32_t *r, size_t r_len,
                      const uint32_t *c, size_t c_len,
                      const uint32_t *vc, size_t vc_len,
                      const uint8_t *v, size_t v_len,
                      uint32_t *clash, uint32_t *place, uint32_t *writer);

/* vp1_places and vp1_may_swap over a state as a whole: the same answers, but never VP1_LENGTHS; the same numbers. The caller owes the same: no null
   pointer, and nothing that is written overlaps anything else; the buffer has room for VP1_PLACES numbers. */
static inline uint32_t vp1_state_places(const struct vp1_state *s, uint32_t word, uint32_t side, uint32_t mask,
                                        uint32_t buffer[VP1_PLACES], uint32_t *reads, uint32_t *writes)
{
    return vp1_places(word, side, mask, s->ds, VP1_DS, s->a, VP1_A, s->r, VP1_R, s->c, VP1_C, s->vc, VP1_VC, s->v, VP1_V,
                      buffer, VP1_PLACES, reads, writes);
}

static inline uint32_t vp1_state_may_swap(const struct vp1_state *s, uint32_t word1, uint32_t side1, uint32_t mask1,
                                          uint32_t word2, uint32_t side2, uint32_t mask2,
                                          uint32_t *clash, uint32_t *place, uint32_t *writer)
{
    return vp1_may_swap(word1, side1, mask1, word2, side2, mask2, s->ds, VP1_DS, s->a, VP1_A, s->r, VP1_R, s->c, VP1_C,
                        s->vc, VP1_VC, s->v, VP1_V, clash, place, writer);
}

#ifdef __cplusplus
}
#endif

#endif
