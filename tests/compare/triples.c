/* triples.c - what lists are made of: opcodes, triples that are refused, budgets. */
#include "triples.h"

#include "documented.h"
#include "draw.h"
#include "fields.h"

#include <string.h>

/* One of three opcodes in a row of the table, or of those one row below. */
static uint32_t one_of_six(uint32_t first)
{
    uint32_t row = below(2);

    return first + row * 16 + below(3);
}

uint32_t list_opcode(void)
{
    static const uint8_t clipping[] = {0x8a, 0x8b, 0x8c, 0x8d, 0x9c, 0x9d, 0x9f, 0xac, 0xbc, 0xbd};

    switch (below(8)) {
    case 0: return 0xd8 + below(3);
    case 1: return 0xdc + below(3);
    case 2: return 0xca + below(4);
    case 3: return one_of_six(0xc0);
    case 4: return one_of_six(0xc4);
    case 5: return ONE_OF(clipping);
    default: return ONE_OF(documented);
    }
}

/* One of the two units' opcodes that documented.h does not list. */
static uint32_t undocumented(void)
{
    uint32_t opcode;

    do
        opcode = 0x80 + below(0x60);
    while (memchr(documented, (int)opcode, sizeof documented) != NULL);
    return opcode;
}

void refuse(uint32_t *t)
{
    uint32_t rest = t[WORD] & 0xffffff;

    switch (below(5)) {
    case 0: t[WORD] = rest | below(0x80) << 24; break;
    case 1: t[WORD] = rest | undocumented() << 24; break;
    case 2: t[WORD] = rest | 0xcau << 24, t[SIDE] = 32 + draw() / 2; break;
    case 3: t[WORD] = rest | 0x8fu << 24, t[MASK] = 0x20000 + draw() / 2; break;
    default: t[WORD] = draw();
    }
}

uint32_t draw_budget(uint32_t n)
{
    switch (below(9)) {
    case 0: return 0;
    case 1: return 1;
    case 2: return n / 2;
    case 3: return n == 0 ? 0 : n - 1;
    case 4: return n + 1;
    case 5: return 0xffffffff;
    case 6: return below(n + 2);
    default: return n;
    }
}
