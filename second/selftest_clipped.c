/* selftest_clipped.c - checks the counts of clipped components (document 02, wish 4):
 * at both ends of each range, with values made by hand; for every pair of values, against
 * the true results as the chapter's steps make them; and what counts nothing. */
#include "selftest.h"

#include "vp1_second.h"

#include <stdio.h>
#include <string.h>

static uint8_t ds[SECOND_DS], v[SECOND_V];
static uint32_t a[SECOND_A], r[SECOND_R], c[SECOND_C], vc[SECOND_VC];
static uint32_t steps;
static uint64_t accesses, clipped;
static int failures;

#define CHECK(cond) check((cond), #cond, __LINE__)

static void check(int ok, const char *text, int line)
{
    if (ok)
        return;
    if (failures++ < 10)
        fprintf(stderr, "selftest_clipped: line %d: %s\n", line, text);
}

/* The six pieces, with these lengths of the store and of $v. */
#define PIECES_OF(nds, nv) \
    ds, (nds), a, SECOND_A, r, SECOND_R, c, SECOND_C, vc, SECOND_VC, v, (nv)

static uint32_t step_of(uint32_t word, uint32_t side, uint32_t mask, size_t nds, size_t nv)
{
    accesses = clipped = 99;
    return second_step(word, side, mask, PIECES_OF(nds, nv), &accesses, &clipped);
}

static uint32_t step(uint32_t word) { return step_of(word, 0, 0, SECOND_DS, SECOND_V); }

static void clear(void)
{
    memset(ds, 0, sizeof ds);
    memset(a, 0, sizeof a);
    memset(r, 0, sizeof r);
    memset(c, 0, sizeof c);
    memset(vc, 0, sizeof vc);
    memset(v, 0, sizeof v);
}

/* ---- A component's sources ---- */

enum { VABS_S = 0x8a, VNEG = 0x8b, VABS_U = 0x9a, VADD9 = 0x9f, BY_BIMM = 0x20 };

static void put_s1(int i, uint32_t s1) { v[16 + i] = (uint8_t)s1; }

/* The same source 2 in all components, into $v2 and $v3: a byte, or vadd9's sixteen bits. */
static void put_s2(uint32_t op, uint32_t s2)
{
    for (int i = 0; i < 32; i++)
        v[32 + i] = (uint8_t)(op == VADD9 && i % 2 == 1 ? s2 >> 8 : s2);
}

/* The instruction on $v1 and, unless it has BIMM, on $v2 and $v3, into $v4. */
static uint32_t word(uint32_t op, uint32_t s2, uint32_t vcdst)
{
    uint32_t source = op & BY_BIMM ? s2 << 3 : 2 << 9 | 3 << 4;

    return op << 24 | 4 << 19 | 1 << 14 | source | vcdst;
}

/* ---- Both ends of each range ---- */

/* With source 2, the first source 1 has a true result within the range, at its end; the
 * second one outside, which is written behind. */
static const struct row { uint32_t op, s2, inside, outside; } rows[] = {
    { 0x8a, 0x00, 0x81, 0x80 },   /* vabs s: 128 */
    { 0x8b, 0x00, 0x81, 0x80 },   /* vneg s: 128 */
    { 0x8c, 0x64, 0x1b, 0x64 },   /* vadd s: 200, as in document 02 */
    { 0x8c, 0x40, 0x3f, 0x40 },   /* 128 */
    { 0x8c, 0xc0, 0xc0, 0xbf },   /* -129 */
    { 0x8c, 0x80, 0x00, 0x80 },   /* -256 */
    { 0x8c, 0x7f, 0x00, 0x7f },   /* 254 */
    { 0x8d, 0xff, 0x7e, 0x7f },   /* vsub s: 128 */
    { 0x8d, 0x80, 0xff, 0x00 },   /* 128 */
    { 0x8d, 0x80, 0xff, 0x7f },   /* 255 */
    { 0x8d, 0x01, 0x81, 0x80 },   /* -129 */
    { 0x8d, 0x7f, 0xff, 0x80 },   /* -255 */
    { 0x9c, 0x01, 0xfe, 0xff },   /* vadd u: 256 */
    { 0x9c, 0xff, 0x00, 0xff },   /* 510 */
    { 0x9d, 0x01, 0x01, 0x00 },   /* vsub u: -1 */
    { 0x9d, 0xff, 0xff, 0x00 },   /* -255 */
    { 0x9f, 0x001, 0xfe, 0xff },  /* vadd9: 256 */
    { 0x9f, 0x0ff, 0x00, 0xff },  /* 510 */
    { 0x9f, 0x1ff, 0x01, 0x00 },  /* -1 */
    { 0x9f, 0x101, 0xff, 0x00 },  /* -255 */
    { 0x9f, 0xfe01, 0xfe, 0xff }, /* 256: the upper seven bits are not its */
    { 0xac, 0x40, 0x3f, 0x40 },   /* vadd s by BIMM: 128 */
    { 0xac, 0x80, 0x00, 0xff },   /* -129 */
    { 0xbc, 0x01, 0xfe, 0xff },   /* vadd u by BIMM: 256 */
    { 0xbd, 0x01, 0x01, 0x00 },   /* vsub u by BIMM: -1 */
};

/* The components outside are those whose bit is set; returns how many. */
static uint32_t put_mixed(const struct row *row, uint32_t outside)
{
    uint32_t n = 0;

    for (int i = 0; i < 16; i++) {
        put_s1(i, outside >> i & 1 ? row->outside : row->inside);
        n += outside >> i & 1;
    }
    return n;
}

/* Each choice of components, with each field of flags, also those that write none. */
static void every_choice(const struct row *row)
{
    clear();
    put_s2(row->op, row->s2);
    for (uint32_t choice = 0; choice < 0x10000; choice++)
        for (uint32_t vcdst = 0; vcdst < 8; vcdst++) {
            uint32_t n = put_mixed(row, choice);

            CHECK(step(word(row->op, row->s2, vcdst)) == 0);
            CHECK(clipped == n && accesses == 0);
        }
}

static void ends_of_the_ranges(void)
{
    for (size_t i = 0; i < sizeof rows / sizeof rows[0]; i++)
        every_choice(&rows[i]);
}

/* vadd9 by -256 is below 0 whatever is added to it: 0 too, though its low byte is then 0. */
static void nine_bits_at_their_lowest(void)
{
    clear();
    put_s2(VADD9, 0x100);
    for (uint32_t s1 = 0; s1 < 256; s1++) {
        memset(v + 16, (int)s1, 16);
        CHECK(step(word(VADD9, 0, 0)) == 0 && clipped == 16);
        CHECK(vc[0] == 0xffffffff);
    }
}

/* ---- Every pair of values, as the chapter's steps have it ---- */

static int sext(uint32_t x, int bit) { return (int)(x & ((1u << bit) - 1)) - (int)(x & 1u << bit); }

static int true_result(uint32_t op, uint32_t s1, uint32_t s2)
{
    int x = op & 0x10 ? (int)s1 : sext(s1, 7), y = op & 0x10 ? (int)s2 : sext(s2, 7);

    switch (op) {
    case VABS_S:
    case VABS_U: return x < 0 ? -x : x;
    case VNEG: return -x;
    case VADD9: return x + sext(s2, 8);
    case 0x8d:
    case 0x9d:
    case 0xbd: return x - y;
    default: return x + y;
    }
}

static int clip(uint32_t op, int res)
{
    int low = op & 0x10 ? 0 : -0x80, high = op & 0x10 ? 0xff : 0x7f;

    return res < low ? low : res > high ? high : res;
}

/* How many of the sixteen sign flags of $vc0 are set. */
static uint32_t signs(void)
{
    uint32_t n = 0;

    for (int i = 0; i < 16; i++)
        n += vc[0] >> i & 1;
    return n;
}

/* Sixteen values of source 1, from s1 on, and what must become of them. An unsigned form's
 * sign flags say which were clipped. */
static void sixteen_pairs(uint32_t op, uint32_t s1, uint32_t s2)
{
    uint8_t stored[16];
    uint32_t n = 0;

    for (int i = 0; i < 16; i++) {
        int res = true_result(op, s1 + (uint32_t)i, s2);

        put_s1(i, s1 + (uint32_t)i);
        stored[i] = (uint8_t)clip(op, res);
        n += clip(op, res) != res;
    }
    CHECK(step(word(op, s2, 0)) == 0 && clipped == n);
    CHECK(memcmp(v + 64, stored, 16) == 0);
    if (op & 0x10)
        CHECK(signs() == n);
}

/* vadd, vsub, vneg, vabs and vadd9. */
enum { COUNTING = 11 };
static const uint32_t counting[COUNTING] = {
    VABS_S, VNEG, 0x8c, 0x8d, VABS_U, 0x9c, 0x9d, VADD9, 0xac, 0xbc, 0xbd
};

static void every_pair(void)
{
    clear();
    for (int k = 0; k < COUNTING; k++)
        for (uint32_t s2 = 0; s2 < (counting[k] == VADD9 ? 512 : 256); s2++) {
            put_s2(counting[k], s2);
            for (uint32_t s1 = 0; s1 < 256; s1 += 16)
                sixteen_pairs(counting[k], s1, s2);
        }
}

/* ---- What counts nothing ---- */

static int counts_any(uint32_t op)
{
    int k = 0;

    while (k < COUNTING && counting[k] != op)
        k++;
    return k < COUNTING;
}

/* On values with which a sum or a difference would leave its range, vclip and vminabs move
 * theirs, and shifts lose bits. */
static void on_edges(uint32_t op)
{
    static const uint8_t bytes[5] = { 0x80, 0x7f, 0xff, 0x00, 0x01 };

    for (uint32_t k = 0; k < 25; k++) {
        clear();
        memset(v + 16, bytes[k % 5], 16);
        put_s2(op, bytes[k / 5]);
        step(word(op, bytes[k / 5], k % 8));
        CHECK(clipped == 0);
    }
}

static void others_count_nothing(void)
{
    for (uint32_t op = 0; op < 256; op++)
        if (!counts_any(op))
            on_edges(op);
}

/* A refused step: by its opcode, its side input or a length. */
static void refused_steps(void)
{
    uint32_t good = word(0xbd, 1, 0);

    clear();
    CHECK(step(good) == 0 && clipped == 16);
    CHECK(step_of(good, 0, 0, SECOND_DS - 1, SECOND_V) == 5 && clipped == 0 && accesses == 0);
    CHECK(step_of(good, 0, 0, SECOND_DS, SECOND_V + 1) == 5 && clipped == 0 && accesses == 0);
    CHECK(step(0x7f000000) == 1 && clipped == 0 && accesses == 0);
    CHECK(step(0x80000000) == 2 && clipped == 0 && accesses == 0);
    CHECK(step_of(0xca000000, 32, 0, SECOND_DS, SECOND_V) == 3 && clipped == 0 && accesses == 0);
    CHECK(step_of(0x8f000000, 0, 0x20000, SECOND_DS, SECOND_V) == 4 && clipped == 0 && accesses == 0);
}

/* ---- The total of a run ---- */

static uint32_t run(const uint32_t *words, size_t n, uint32_t budget, size_t nds)
{
    steps = 99;
    accesses = clipped = 99;
    return second_run(words, n, budget, PIECES_OF(nds, SECOND_V), &steps, &accesses, &clipped);
}

static int counts(uint32_t s, uint64_t cells, uint64_t k)
{
    return steps == s && accesses == cells && clipped == k;
}

/* vsub u $v4 $v1 0x1, a row loaded, the same vsub, a word that is refused, and vsub once
 * more. Five components of $v1 are 0, and clipped each time; the others are 1. */
static void totals(void)
{
    uint32_t sub = word(0xbd, 1, 7);
    const uint32_t list[15] = { sub, 0, 0, 0xd8280007, 0, 0, sub, 0, 0, 0xc3000000, 0, 0, sub, 0, 0 };

    clear();
    memset(v + 16 + 5, 1, 11);
    CHECK(run(list, 15, 99, SECOND_DS) == 2 && counts(3, 16, 10));
    CHECK(run(list, 9, 99, SECOND_DS) == 0 && counts(3, 16, 10));
    CHECK(run(list, 9, 2, SECOND_DS) == 7 && counts(2, 16, 5));
    CHECK(run(list, 9, 1, SECOND_DS) == 7 && counts(1, 0, 5));
    CHECK(run(list, 9, 0, SECOND_DS) == 7 && counts(0, 0, 0));
    CHECK(run(list, 0, 9, SECOND_DS) == 0 && counts(0, 0, 0));
    CHECK(run(list, 9, 9, SECOND_DS + 1) == 5 && counts(0, 0, 0));
    CHECK(run(list, 8, 9, SECOND_DS) == 6 && counts(0, 0, 0));
}

int selftest_clipped(void)
{
    ends_of_the_ranges();
    nine_bits_at_their_lowest();
    every_pair();
    others_count_nothing();
    refused_steps();
    totals();
    return failures;
}
