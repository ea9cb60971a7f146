/* What the libraries of VP1's address and vector units share: the six pieces of memory that the caller lends, what the caller owes, the numbers
   of the answers; and struct vp1_state, which holds the six pieces together. It declares no call: vp1.h, vp1_order.h and vp1_names.h do, and
   include it. */
#ifndef VP1_STATE_H
#define VP1_STATE_H

#include <stddef.h>
#include <stdint.h>

/* Each piece is a pointer and the number of its elements (bytes, or words of 32 bits). The right numbers:

     ds  8192 bytes   the data store; the byte DS[bank, cell, hilo] lies at bank * 512 + cell * 2 + hilo
     a     32 words   $a: bits 0-15 addr, 16-29 limit, 30-31 stride code
     r     32 words   $r
     c      4 words   $c: bit 8 sign, bit 9 zero, bit 10 end
     vc     4 words   $vc: bits 0-15 the signs, 16-31 the zeros
     v    512 bytes   $v: register n at 16 * n

   The caller owes only what C cannot test: no pointer is null, not even with the number 0; each is aligned and has that many elements
   behind it; and nothing that is written, a piece, a run's words or a count, overlaps anything else that is lent.

   A call answers with a number. Nothing else is an answer, and nothing is undefined for any words, side inputs, lengths or budget.

     VP1_DONE          done
     VP1_FOREIGN       the opcode is below 0x80 or above 0xdf
     VP1_UNDOCUMENTED  the opcode is from 0x80 to 0xdf, and not documented
     VP1_SIDE_INDEX    the instruction uses the side index, and it is above 31
     VP1_SIDE_MASK     the instruction is vcmpad, and the side mask word is above 0x1ffff
     VP1_LENGTHS       a piece has another length: tested first, but an answer that a run in parts keeps comes before it; or the words of a run in
                       parts have another length: tested before all; or they are out of the bounds of every run
     VP1_RAGGED        list call: the number of words is no multiple of 3; tested next. End of a list in parts: bytes are left over
     VP1_SPENT         list call, part: the budget is spent, and the list is not finished; tested before each triple
     VP1_UNNAMED       reading: all up to the text's first space or line feed is no instruction's name
     VP1_AMISS         reading: anything else is amiss
     VP1_UNENDED       reading: the text's only line feed is not its last byte; tested first
     VP1_SHORT         writing: the output is shorter than the whole line */
enum {
    VP1_DONE = 0,
    VP1_FOREIGN = 1,
    VP1_UNDOCUMENTED = 2,
    VP1_SIDE_INDEX = 3,
    VP1_SIDE_MASK = 4,
    VP1_LENGTHS = 5,
    VP1_RAGGED = 6,
    VP1_SPENT = 7,
    VP1_UNNAMED = 8,
    VP1_AMISS = 9,
    VP1_UNENDED = 10,
    VP1_SHORT = 11
};

/* The right numbers of elements, by name. */
enum { VP1_DS = 8192, VP1_A = 32, VP1_R = 32, VP1_C = 4, VP1_VC = 4, VP1_V = 512 };

/* The six pieces, in the order of the calls and without a gap. A state of zeros is a good one, as any other. */
struct vp1_state {
    uint8_t ds[VP1_DS];
    uint32_t a[VP1_A];
    uint32_t r[VP1_R];
    uint32_t c[VP1_C];
    uint32_t vc[VP1_VC];
    uint8_t v[VP1_V];
};

/* What is kept of a run in parts, between its calls. */
enum { VP1_PARTS = 16 };

struct vp1_parts {
    uint32_t words[VP1_PARTS];
};

/* What a call counts. A count that is added later becomes a field at the end, and an argument of vp1_step, vp1_run, vp1_part and vp1_end: a program
   over vp1_state_step, vp1_state_run, vp1_state_part and vp1_parts_end, which are compiled with it, then needs no other change than to be compiled again. */
struct vp1_counts {
    uint64_t accesses; /* the cells that loads and stores entered */
    uint64_t clipped;  /* of vadd, vsub, vneg, vabs and vadd9: the components whose true result lay outside the clip range */
};

#endif
