/* bends.c - the edges: ways to bend a triple and the state towards what drawn numbers seldom reach. */
#include "draw.h"
#include "fields.h"
#include "parts.h"
#include "rooms.h"

#include <string.h>

/* ---- Registers that are one ---- */

static void dst_is_src1(uint32_t *t) { set(t, DST, get(t, SRC1)); }
static void src2_is_dst(uint32_t *t) { set(t, SRC2, get(t, DST)); }
static void src3_is_dst(uint32_t *t) { set(t, SRC3, get(t, DST)); }
static void side_is_dst(uint32_t *t) { t[SIDE] = get(t, DST); }
static void side_is_src1(uint32_t *t) { t[SIDE] = get(t, SRC1); }
static void src2_is_pair(uint32_t *t) { set(t, SRC2, get(t, SRC1) | 1); }

/* ---- Side inputs and fields ---- */

static void no_flags(uint32_t *t) { set(t, FLAGS, 4 + below(4)); }
static void some_flags(uint32_t *t) { set(t, FLAGS, below(4)); }
static void side_32(uint32_t *t) { t[SIDE] = 32; }
static void mask_above(uint32_t *t) { t[MASK] = 0x20000; }
static void mask_valid(uint32_t *t) { t[MASK] |= 0x10000; }
static void mask_absent(uint32_t *t) { t[MASK] &= 0xffff; }
static void all_bits(uint32_t *t) { t[WORD] |= 0xffffff; }
static void no_bits(uint32_t *t) { t[WORD] &= 0xff000000; }

static void edge_side(uint32_t *t)
{
    static const uint32_t edges[] = {0, 31, 32, 33, 64, 0x100, 0x80000000, 0xffffffff};

    t[SIDE] = ONE_OF(edges);
}

static void edge_mask(uint32_t *t)
{
    static const uint32_t edges[] = {0, 0xffff, 0x10000, 0x1ffff, 0x20000, 0x30000, 0x80000000, 0xffffffff};

    t[MASK] = ONE_OF(edges);
}

/* IMM is the same bits: 0x400 is -1,024 and 0x7ff is -1. */
static void edge_uimm(uint32_t *t)
{
    static const uint32_t edges[] = {0, 1, 0xf, 0x10, 0x3ff, 0x400, 0x401, 0x7fe, 0x7ff};

    set(t, UIMM, ONE_OF(edges));
}

static void edge_bimm(uint32_t *t) { set(t, BIMM, edge_byte()); }

/* ---- $a and $r ---- */

static void bases_near(uint32_t *t, uint32_t u)
{
    poke(A, get(t, DST), near_a(u));
    poke(A, get(t, SRC1), near_a(u));
}

static void near_addr(uint32_t *t)
{
    set(t, UIMM, 0);
    bases_near(t, 0);
}

static void near_uimm(uint32_t *t) { bases_near(t, get(t, UIMM)); }

static void edge_bases(uint32_t *t)
{
    poke(A, get(t, DST), edge_a());
    poke(A, get(t, SRC1), edge_a());
    poke(A, t[SIDE] % 32, edge_a());
}

/* addr so near its end that an increment carries out of it. */
static void addr_at_end(uint32_t *t)
{
    uint32_t base = (draw() & 0xffff0000) | (0xffff - below(0x400));

    edge_uimm(t);
    poke(A, get(t, DST), base);
    poke(A, get(t, SRC1), base);
}

static void edge_words(uint32_t *t)
{
    poke(A, get(t, SRC1), edge_word());
    poke(A, get(t, SRC2), edge_word());
    poke(A, t[SIDE] % 32, edge_word());
    poke(R, get(t, SRC1), edge_word());
}

/* A sum of 0, for the zero flag of add. */
static void sum_is_zero(uint32_t *t) { poke(A, t[SIDE] % 32, 0u - element(&rooms[BEFORE], A, get(t, SRC1))); }

static void edge_flags(uint32_t *t)
{
    poke(C, get(t, FLAGS) % 4, edge_word());
    poke(VC, get(t, FLAGS) % 4, edge_word());
}

/* ---- $v ---- */

static void edge_bytes(uint32_t *t)
{
    edge_vector(get(t, SRC1));
    edge_vector(get(t, SRC2));
    edge_vector(get(t, SRC3));
    edge_vector(get(t, SRC1) | 1);
}

static void all_one(uint32_t *t)
{
    edge_vector(get(t, SRC1));
    set(t, DST, get(t, SRC1));
    set(t, SRC2, get(t, SRC1));
}

static const uint8_t *vector(uint32_t n) { return rooms[BEFORE].v + 16 * n; }

/* Values within one of each other, for comparisons: source 2 and 3 of source 1. */
static void near_bytes(uint32_t *t)
{
    uint8_t bytes[16];

    for (int s = 0; s < 2; s++) {
        memcpy(bytes, vector(get(t, SRC1)), 16);
        for (int i = 0; i < 16; i++)
            bytes[i] = (uint8_t)(bytes[i] + below(3) - 1);
        poke_vector(get(t, s ? SRC2 : SRC3), bytes);
    }
}

/* vcmpad's other register within one of the difference that it is compared with. */
static void near_difference(uint32_t *t)
{
    const uint8_t *x = vector(get(t, SRC1)), *y = vector(get(t, SRC2));
    uint8_t bytes[16];

    for (int i = 0; i < 16; i++)
        bytes[i] = (uint8_t)((x[i] < y[i] ? y[i] - x[i] : x[i] - y[i]) + below(3) - 1);
    poke_vector(get(t, SRC1) | 1, bytes);
}

/* Sixteen-bit components at the ends of nine bits, signed. */
static void edge_nines(uint32_t *t)
{
    static const uint16_t edges[] = {0, 1, 0xff, 0x100, 0x101, 0x1ff, 0x200, 0xfeff, 0xff00, 0xffff};
    uint16_t words[8];

    for (int s = 0; s < 2; s++) {
        for (int i = 0; i < 8; i++)
            words[i] = ONE_OF(edges);
        poke_vector(get(t, s ? SRC2 : SRC3), (const uint8_t *)words);
    }
    edge_vector(get(t, SRC1));
}

/* The ends of both ranges that results are clipped to, and one beyond each. */
static int32_t end_value(void)
{
    static const int32_t values[] = {-129, -128, -1, 0, 127, 128, 255, 256};

    return ONE_OF(values);
}

/* Sums on such a value: of source 1 and BIMM, and of sources 1 and 2. A byte that is 256 more or less than was asked for comes to another of them. */
static void sums_at_ends(uint32_t *t)
{
    uint8_t first[16], second[16];

    for (int i = 0; i < 16; i++) {
        first[i] = (uint8_t)(end_value() - (int32_t)get(t, BIMM));
        second[i] = (uint8_t)(end_value() - first[i]);
    }
    poke_vector(get(t, SRC1), first);
    poke_vector(get(t, SRC2), second);
}

/* The same of differences. */
static void differences_at_ends(uint32_t *t)
{
    uint8_t first[16], second[16];

    for (int i = 0; i < 16; i++) {
        first[i] = (uint8_t)(end_value() + (int32_t)get(t, BIMM));
        second[i] = (uint8_t)(first[i] - end_value());
    }
    poke_vector(get(t, SRC1), first);
    poke_vector(get(t, SRC2), second);
}

/* The same of negations and absolute values, and of sums with sixteen-bit components. */
static void nines_at_ends(uint32_t *t)
{
    uint8_t first[16];
    uint16_t words[16];

    for (int i = 0; i < 16; i++) {
        first[i] = (uint8_t)-end_value();
        words[i] = (uint16_t)(end_value() - first[i]);
    }
    poke_vector(get(t, SRC1), first);
    poke_vector(get(t, SRC2), (const uint8_t *)words);
    poke_vector(get(t, SRC3), (const uint8_t *)(words + 8));
}

/* Each count, and bytes of one bit. */
static void counts(uint32_t *t)
{
    uint8_t bytes[16], ones[16];

    for (int i = 0; i < 16; i++) {
        bytes[i] = (uint8_t)(draw() % 16 * 16 + i);
        ones[i] = (uint8_t)(1u << below(8));
    }
    poke_vector(get(t, SRC1), ones);
    poke_vector(get(t, SRC2), bytes);
}

static void no_bend(uint32_t *t) { (void)t; }

static void (*const bends[BENDS])(uint32_t *) = {
    dst_is_src1, src2_is_dst, src3_is_dst, side_is_dst, side_is_src1,    src2_is_pair, no_flags,    some_flags,
    side_32,     edge_side,   mask_above,  edge_mask,   mask_valid,      mask_absent,  all_bits,    no_bits,
    edge_uimm,   edge_bimm,   near_addr,   near_uimm,   edge_bases,      addr_at_end,  edge_words,  sum_is_zero,
    edge_flags,  edge_bytes,  all_one,     near_bytes,  near_difference, edge_nines,   counts,      no_bend,
    sums_at_ends, differences_at_ends, nines_at_ends,
};

void bend(uint32_t *triple, unsigned long k) { bends[k % BENDS](triple); }
