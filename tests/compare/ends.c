/* ends.c - values at the ends of ranges: vclip of every byte between every two ends, below, on, between and above them, in both orders; and vadd,
   vsub, vneg, vabs and vadd9 of every two values, with results within the range that they are clipped to, on its ends and outside. */
#include "draw.h"
#include "fields.h"
#include "parts.h"
#include "report.h"
#include "rooms.h"

#include <string.h>

enum { VCLIP = 0xa4, COMPONENTS = 16, CLIPS = (1 << 24) / COMPONENTS };

/* The instructions that clip a sum or the like; those with bit 5 take source 2 from BIMM. */
enum { VADD9 = 0x9f, BY_BIMM = 0x20, NINE_BITS = 512 };
static const uint8_t clipping[] = {0x8a, 0x8b, 0x8c, 0x8d, 0x9a, 0x9c, 0x9d, VADD9, 0xac, 0xbc, 0xbd};
enum { CLIPPING = sizeof clipping, SUMS = CLIPPING * NINE_BITS * 256 / COMPONENTS };

static void poke_all(size_t n, uint8_t byte)
{
    uint8_t bytes[COMPONENTS];

    memset(bytes, byte, sizeof bytes);
    poke_vector(n, bytes);
}

/* The sixteen bytes from this one on, the first of them in any component: else a component would meet one byte in sixteen only. */
static void poke_turned(size_t n, uint8_t byte)
{
    uint8_t bytes[COMPONENTS];
    uint32_t turn = below(COMPONENTS);

    for (uint32_t i = 0; i < COMPONENTS; i++)
        bytes[(i + turn) % COMPONENTS] = (uint8_t)(byte + i);
    poke_vector(n, bytes);
}

/* A triple with a register for each of its three sources. */
static void draw_sources(uint32_t *triple, uint32_t opcode)
{
    uint32_t first = below(32);

    draw_triple(triple, opcode);
    set(triple, SRC1, first);
    set(triple, SRC2, (first + 1) % 32);
    set(triple, SRC3, (first + 2) % 32);
}

/* Step k: source 1 and the two ends; the flags are always written. */
static void draw_vclip(uint32_t *triple, unsigned long k)
{
    draw_sources(triple, VCLIP);
    set(triple, FLAGS, below(4));
    poke_turned(get(triple, SRC1), (uint8_t)(k * COMPONENTS));
    poke_all(get(triple, SRC2), (uint8_t)(k >> 4));
    poke_all(get(triple, SRC3), (uint8_t)(k >> 12));
}

/* The same nine bits in all sixteen-bit components of a register; the other seven are drawn. */
static void poke_nines(size_t n, uint32_t nine)
{
    uint16_t words[COMPONENTS / 2];

    for (int i = 0; i < COMPONENTS / 2; i++)
        words[i] = (uint16_t)(nine | draw() << 9);
    poke_vector(n, (const uint8_t *)words);
}

static void poke_second(uint32_t *triple, uint32_t opcode, uint32_t second)
{
    if (opcode == VADD9) {
        poke_nines(get(triple, SRC2), second);
        poke_nines(get(triple, SRC3), second);
    } else if (opcode & BY_BIMM) {
        set(triple, BIMM, second);
    } else {
        poke_all(get(triple, SRC2), (uint8_t)second);
    }
}

/* Step k: the opcodes by turns; of each every source 1 by every source 2 of nine bits, so that two bytes meet twice. */
static void draw_sum(uint32_t *triple, unsigned long k)
{
    uint32_t opcode = clipping[k % CLIPPING], pair = (uint32_t)(k / CLIPPING);

    draw_sources(triple, opcode);
    poke_turned(get(triple, SRC1), (uint8_t)(pair * COMPONENTS));
    poke_second(triple, opcode, pair / (256 / COMPONENTS));
}

/* Steps that are drawn by their number, of one state that goes on. */
static int steps(unsigned long n, void (*draw_step)(uint32_t *triple, unsigned long k))
{
    redraw_all();
    for (unsigned long k = 0; k < share(n); k++) {
        uint32_t triple[TRIPLE];

        next_case();
        draw_step(triple, k);
        if (!step_on(triple))
            return 0;
    }
    return 1;
}

int ends(void) { return steps(CLIPS, draw_vclip); }
int sums(void) { return steps(SUMS, draw_sum); }
