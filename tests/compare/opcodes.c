/* opcodes.c - single steps: many of each documented opcode, and every opcode with side inputs at the edges. */
#include "calls.h"
#include "documented.h"
#include "draw.h"
#include "fields.h"
#include "parts.h"
#include "report.h"
#include "slips.h"

#include <stdio.h>
#include <string.h>

/* So many steps of each opcode that ENOUGH are done and not refused: at most two bends of 35 make refused ones. */
enum { EACH = 21504, ENOUGH = 20000 };

static void refresh_vector(size_t n) { below(4) ? draw_vector(n) : edge_vector(n); }

void refresh(const uint32_t *t)
{
    static const enum field sources[] = {SRC1, SRC2, SRC3};

    if (at.number % 1024 == 1)
        redraw_all();
    poke(A, get(t, DST), any_a());
    poke(A, get(t, SRC1), any_a());
    poke(A, get(t, SRC2), any_a());
    poke(A, t[SIDE] % 32, any_a());
    poke(R, get(t, SRC1), draw());
    poke(R, get(t, DST), draw());
    poke(C, get(t, FLAGS) % 4, draw());
    poke(VC, get(t, FLAGS) % 4, draw());
    for (int i = 0; i < 3; i++)
        refresh_vector(get(t, sources[i]));
    refresh_vector(get(t, SRC1) | 1);
    draw_vector(get(t, DST));
    poke_byte(below(LENGTH(ds)), (uint8_t)draw());
}

int step_on(const uint32_t *triple)
{
    struct asked q = a_step(triple);
    struct outcome said;

    if (!ask(&q, 0, &said))
        return 0;
    if (said.answer == 0)
        go_on();
    return 1;
}

static int steps_of(uint32_t opcode)
{
    for (unsigned long k = 0; k < share(EACH); k++) {
        uint32_t triple[TRIPLE];

        next_case();
        draw_triple(triple, opcode);
        refresh(triple);
        bend(triple, k);
        if (!step_on(triple))
            return 0;
    }
    return 1;
}

/* A step that is refused compares little, so there must be enough of the others. */
static int enough(uint32_t opcode, unsigned long done)
{
    if (slip_in_steps())
        done = 0;
    if (done >= share(ENOUGH))
        return 1;
    strcpy(differed, "steps of an opcode");
    if (!quiet)
        printf("compare: of opcode %02x only %lu steps were done, fewer than %lu\n", (unsigned)opcode, done, share(ENOUGH));
    return 0;
}

int opcodes(void)
{
    for (size_t i = 0; i < sizeof documented; i++) {
        unsigned long before = answers[STEP][VP1_DONE];

        if (!steps_of(documented[i]) || !enough(documented[i], answers[STEP][VP1_DONE] - before))
            return 0;
    }
    return 1;
}

/* ---- The answers to every opcode ---- */

/* All four calls of one triple; may_swap with a nop behind it and with one before it. */
static int four_calls(const uint32_t *t)
{
    const uint32_t two[9] = {t[0], t[1], t[2], 0xbf000000, 0, 0, t[0], t[1], t[2]};
    struct asked q = {.words = two, .count = 3, .lent = right, .budget = 1, .buffer = LEAST};
    struct outcome said;

    q.call = PLACES;
    if (!ask(&q, 0, &said))
        return 0;
    q.call = SWAP, q.count = 6;
    if (!ask(&q, 0, &said))
        return 0;
    q.words = two + 3;
    if (!ask(&q, 0, &said))
        return 0;
    q.call = RUN, q.words = two, q.count = 3;
    if (!ask(&q, 0, &said))
        return 0;
    go_on();
    return step_on(t);
}

/* Whether documented.h lists the opcodes that are not refused, and no other. */
static int list_is_right(void)
{
    for (uint32_t op = 0; op < 256; op++) {
        const uint32_t triple[TRIPLE] = {op << 24, 0, 0};
        struct asked q = {.call = PLACES, .words = triple, .count = 3, .lent = right, .buffer = LEAST};
        struct outcome said;

        next_case();
        if (!ask(&q, 0, &said))
            return 0;
        if ((said.answer == 0) != (memchr(documented, (int)op, sizeof documented) != NULL)) {
            printf("compare: documented.h is wrong about opcode %02x\n", (unsigned)op);
            strcpy(differed, "documented.h");
            return 0;
        }
    }
    return 1;
}

int all_opcodes(void)
{
    static const uint32_t sides[] = {0, 31, 32, 0x80000000, 0xffffffff}, lows[] = {0, 7, 0xffffff};
    static const uint32_t masks[] = {0, 0xffff, 0x10000, 0x1ffff, 0x20000, 0xffffffff};

    redraw_all();
    if (!list_is_right())
        return 0;
    for (uint32_t op = 0; op < 256; op++)
        for (int k = 0; k < 5 * 6 * 3; k += brief ? 7 : 1) {
            uint32_t triple[TRIPLE] = {op << 24 | lows[k % 3], sides[k / 3 % 5], masks[k / 15]};

            next_case();
            if (!four_calls(triple))
                return 0;
        }
    return 1;
}
