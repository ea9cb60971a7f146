/* fields.c - the fields of an instruction word, and a triple drawn. */
#include "fields.h"

#include "draw.h"

static const struct {
    uint32_t shift, mask;
} places[FIELDS] = {
    [FLAGS] = {0, 7}, [UIMM] = {3, 0x7ff}, [BIMM] = {3, 0xff}, [SRC3] = {4, 31}, [SRC2] = {9, 31}, [SRC1] = {14, 31}, [DST] = {19, 31},
};

uint32_t get(const uint32_t *triple, enum field f) { return triple[WORD] >> places[f].shift & places[f].mask; }

void set(uint32_t *triple, enum field f, uint32_t value)
{
    uint32_t mask = places[f].mask << places[f].shift;

    triple[WORD] = (triple[WORD] & ~mask) | (value << places[f].shift & mask);
}

void draw_triple(uint32_t *triple, uint32_t opcode)
{
    triple[WORD] = opcode << 24 | below(0x1000000);
    triple[SIDE] = below(32);
    triple[MASK] = below(0x20000);
}
