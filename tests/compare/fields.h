/* fields.h - the fields of an instruction word, and the three words of a triple. */
#ifndef COMPARE_FIELDS_H
#define COMPARE_FIELDS_H

#include <stdint.h>

enum { WORD, SIDE, MASK, TRIPLE };

enum field { FLAGS, UIMM, BIMM, SRC3, SRC2, SRC1, DST, FIELDS };

uint32_t get(const uint32_t *triple, enum field f);
void set(uint32_t *triple, enum field f, uint32_t value);

/* A triple of the opcode that is not refused for its side inputs: the rest of it is drawn. */
void draw_triple(uint32_t *triple, uint32_t opcode);

#endif
