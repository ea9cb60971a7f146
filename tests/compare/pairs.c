/* pairs.c - pairs of triples: the verdict of both engines, and every free pair in both orders. */
#include "calls.h"
#include "documented.h"
#include "draw.h"
#include "fields.h"
#include "kinds.h"
#include "parts.h"
#include "report.h"
#include "vp1_second.h"

#include <stdio.h>
#include <string.h>

/* Each two documented opcodes, in this order, so many times. */
enum { ROUNDS = 352, OPCODES = sizeof documented, ENOUGH = 1000000 };

static unsigned long freed, clashed, refused;

/* ---- The pair and its state ---- */

/* In one pair of four (close) there are four registers, and often two of flags, so that they meet; else any. */
static uint32_t draw_register(int close) { return below(close ? 4 : 32); }

static void draw_close_triple(uint32_t *t, uint32_t op, int close)
{
    draw_triple(t, op);
    set(t, DST, draw_register(close));
    set(t, SRC1, draw_register(close));
    set(t, SRC2, draw_register(close));
    set(t, SRC3, draw_register(close));
    t[SIDE] = draw_register(close);
    if (close && below(2))
        set(t, FLAGS, below(2));
}

/* Most bases of a pair have one code and a small address, so that bytes meet. */
static uint32_t draw_base(uint32_t code)
{
    uint32_t word = draw();

    switch (below(8)) {
    case 0: return word;
    case 1: return edge_a();
    default: return word % 128 | (word >> 8) % 256 << 16 | code << 30;
    }
}

static void refresh_pair(const uint32_t *t)
{
    uint32_t code = below(4);

    if (at.number % 4096 == 1)
        redraw_all();
    for (int i = 0; i < 2; i++, t += TRIPLE) {
        poke(A, get(t, DST), draw_base(code));
        poke(A, get(t, SRC1), draw_base(code));
        poke(A, t[SIDE] % 32, draw_base(code));
        poke(R, get(t, SRC1), draw());
        draw_vector(get(t, SRC1));
        draw_vector(get(t, SRC2));
    }
}

/* ---- The verdict ---- */

static int names(const uint32_t *t, uint32_t place)
{
    struct room *room = &rooms[THEIRS];
    uint32_t buffer[SECOND_PLACES], reads, writes;

    second_places(t[0], t[1], t[2], room->ds, SECOND_DS, room->a, SECOND_A, room->r, SECOND_R, room->c, SECOND_C, room->vc, SECOND_VC,
                  room->v, SECOND_V, buffer, SECOND_PLACES, &reads, &writes);
    for (uint32_t i = 0; i < reads + writes; i++)
        if (buffer[i] == place)
            return 1;
    return 0;
}

static void count_clash(const uint32_t *t, uint32_t place, uint32_t writer)
{
    int signs = place >= SECOND_PLACE_VC && place < SECOND_PLACE_DS;

    clashed++;
    count_kind(place, writer, signs && names(t, place + 1) && names(t + TRIPLE, place + 1));
}

static int both_orders(const uint32_t *t)
{
    struct asked one = a_step(t), two = a_step(t + TRIPLE);
    struct outcome one_first, two_second, two_first, one_second;
    int numbers;

    next_turn("a free pair, the first and then the second", t, 2 * TRIPLE);
    if (!ask(&one, 0, &one_first) || !ask(&two, 0, &two_second))
        return 0;
    next_turn("a free pair, the second and then the first", t, 2 * TRIPLE);
    if (!ask(&two, 1, &two_first) || !ask(&one, 1, &one_second))
        return 0;
    numbers = same_numbers(&one_first, &one_second);
    if (numbers && same_numbers(&two_first, &two_second) && alike(&rooms[OURS], &rooms[OURS_BACK])) {
        go_on();
        return 1;
    }
    next_turn("the two orders of a free pair", t, 2 * TRIPLE);
    report(numbers ? &two : &one, 0, (struct side){"first, second", &rooms[OURS], numbers ? &two_second : &one_first},
           (struct side){"second, first", &rooms[OURS_BACK], numbers ? &two_first : &one_second});
    return 0;
}

static int pair(const uint32_t *t)
{
    struct asked q = {.call = SWAP, .words = t, .count = 2 * TRIPLE, .lent = right};
    struct outcome said;

    if (!ask(&q, 0, &said))
        return 0;
    if (said.answer != 0) {
        refused++;
        return 1;
    }
    if (said.count[0].n != 0) {
        count_clash(t, said.count[1].n, said.count[2].n);
        return 1;
    }
    freed++;
    return both_orders(t);
}

/* ---- The pairs ---- */

static int documented_pairs(void)
{
    /* Even the brief run must meet every kind of clash. */
    unsigned long rounds = brief ? ROUNDS / 16 : ROUNDS;

    for (unsigned long k = 0; k < rounds * OPCODES * OPCODES; k++) {
        uint32_t t[2 * TRIPLE];
        int close = below(4) == 0;

        next_case();
        draw_close_triple(t, documented[k % OPCODES], close);
        draw_close_triple(t + TRIPLE, documented[k / OPCODES % OPCODES], close);
        refresh_pair(t);
        if (!pair(t))
            return 0;
    }
    return 1;
}

/* Each two of the 256 opcodes, with side inputs that are refused often. */
static int all_pairs(void)
{
    for (uint32_t k = 0; k < 0x10000; k += brief ? 37 : 1) {
        uint32_t t[2 * TRIPLE];

        next_case();
        for (int i = 0; i < 2; i++) {
            draw_close_triple(t + TRIPLE * i, k >> 8 * i & 255, 0);
            if (below(4) == 0)
                t[TRIPLE * i + SIDE] = below(2) ? 32 : draw();
            if (below(4) == 0)
                t[TRIPLE * i + MASK] = below(2) ? 0x20000 : draw();
        }
        refresh_pair(t);
        if (!pair(t))
            return 0;
    }
    return 1;
}

int pairs(void)
{
    freed = clashed = refused = 0;
    forget_kinds();
    return documented_pairs() && all_pairs();
}

int print_pairs(void)
{
    if (!quiet)
        printf("of the pairs: %lu are refused, %lu clash, %lu are free and were run in both orders\n", refused, clashed, freed);
    if (!brief && freed < ENOUGH) {
        printf("compare: fewer than %d free pairs\n", ENOUGH);
        strcpy(differed, "free pairs");
        return 0;
    }
    return print_kinds();
}
