/* vp1_second.c - the second simulator of VP1's address and vector units: the
 * translation of addresses, the operations, the decision over the opcode, and
 * the two public calls. */
#include "vp1_second.h"

#include <string.h>

#if !defined(__BYTE_ORDER__) || __BYTE_ORDER__ != __ORDER_LITTLE_ENDIAN__
#error "eight lanes are read as one little-endian word"
#endif

/* Every small function here is to become part of exec: a vector handed to a real
 * call would have to leave the vector registers for integer ones. */
#define INLINE static inline __attribute__((always_inline))

struct pieces {
    uint8_t *ds;
    uint32_t *a, *r, *c, *vc;
    uint8_t *v;
};

/* A vector register as a value: what is held here no longer changes when the
 * destination is written, so every source is read first. */
typedef struct { uint8_t b[16]; } vec;

/* ---- Fields of the word ---- */

INLINE uint32_t f_dst(uint32_t w) { return w >> 19 & 31; }
INLINE uint32_t f_src1(uint32_t w) { return w >> 14 & 31; }
INLINE uint32_t f_src2(uint32_t w) { return w >> 9 & 31; }
INLINE uint32_t f_src3(uint32_t w) { return w >> 4 & 31; }
INLINE uint32_t f_flags(uint32_t w) { return w & 7; }
INLINE uint32_t f_bitop(uint32_t w) { return w >> 3 & 15; }
INLINE uint32_t f_cmpop(uint32_t w) { return w >> 19 & 15; }
INLINE uint32_t f_bimm(uint32_t w) { return w >> 3 & 255; }
INLINE uint32_t f_imm16(uint32_t w) { return w & 0xffff; }
INLINE uint32_t f_uimm(uint32_t w) { return w >> 3 & 0x7ff; }
INLINE uint32_t f_hi(uint32_t w) { return w >> 3 & 1; }

/* IMM modulo 2^32; it is only ever added modulo 2^16. */
INLINE uint32_t f_imm(uint32_t w) { return (f_uimm(w) ^ 0x400) - 0x400; }

/* Bit (x + 2y) of op, for each pair of bits of x and y. */
INLINE uint64_t bitop(uint32_t op, uint64_t x, uint64_t y)
{
    uint64_t m0 = -(uint64_t)(op & 1), m1 = -(uint64_t)(op >> 1 & 1);
    uint64_t m2 = -(uint64_t)(op >> 2 & 1), m3 = -(uint64_t)(op >> 3 & 1);

    return (m0 & ~x & ~y) | (m1 & x & ~y) | (m2 & ~x & y) | (m3 & x & y);
}

/* ---- The data store ----
 *
 * An address is 13 bits. Its cell and hilo together are address >> 4, which is
 * also the byte's place within its bank: the byte lies at bank * 512 + address / 16.
 * The bytes of an access lie one step apart, modulo the store:
 *
 * - Horizontal and scalar: only the low four bits of the address change, so the
 *   bank goes up by one and the place within it stays.
 * - Vertical, codes 1 to 3: the bits that run, 4+code to 7+code, are the low four
 *   bits of what is added to the bank, so it goes up by one; and the place within
 *   it, which has those bits clear, goes up by 1 << code without a carry.
 * - Vertical, code 0: the upper three of the four bits that run are added to the
 *   bank, so the bytes lie in pairs, the two halves of a cell; from pair to pair
 *   the bank goes up by one and the place within it by 2. */

enum { BANK = 512, DS_MASK = 0x1fff };

/* Where the byte of an address lies. */
INLINE uint32_t place(uint32_t addr, uint32_t code)
{
    uint32_t k = code == 0 ? addr >> 5 & 7 : addr >> (4 + code);

    return ((addr + k) & 15) * BANK | addr >> 4;
}

/* The address with the bits that run cleared. */
INLINE uint32_t top_of_column(uint32_t addr, uint32_t code)
{
    return addr & 0x1fff & ~(15u << (4 + code));
}

/* Loaded bytes are collected in words: bytes put into memory one by one and then
 * read as one vector would have to wait for all of the writes. */
INLINE vec load16(const uint8_t *ds, uint32_t at, uint32_t step)
{
    uint64_t out[2] = { 0, 0 };
    vec x;

    for (uint32_t i = 0; i < 16; i++)
        out[i / 8] |= (uint64_t)ds[(at + i * step) & DS_MASK] << 8 * (i % 8);
    memcpy(x.b, out, 16);
    return x;
}

INLINE void store16(uint8_t *ds, uint32_t at, uint32_t step, vec x)
{
    for (uint32_t i = 0; i < 16; i++)
        ds[(at + i * step) & DS_MASK] = x.b[i];
}

INLINE vec load_pairs(const uint8_t *ds, uint32_t at)
{
    uint64_t out[2] = { 0, 0 };
    uint16_t pair;
    vec x;

    for (uint32_t i = 0; i < 8; i++) {
        memcpy(&pair, ds + ((at + i * (BANK + 2)) & DS_MASK), 2);
        out[i / 4] |= (uint64_t)pair << 16 * (i % 4);
    }
    memcpy(x.b, out, 16);
    return x;
}

INLINE void store_pairs(uint8_t *ds, uint32_t at, vec x)
{
    for (uint32_t i = 0; i < 8; i++)
        memcpy(ds + ((at + i * (BANK + 2)) & DS_MASK), x.b + 2 * i, 2);
}

INLINE vec load_h(const uint8_t *ds, uint32_t addr, uint32_t code)
{
    return load16(ds, place(addr & 0x1ff0, code), BANK);
}

INLINE void store_h(uint8_t *ds, uint32_t addr, uint32_t code, vec x)
{
    store16(ds, place(addr & 0x1ff0, code), BANK, x);
}

INLINE vec load_v(const uint8_t *ds, uint32_t addr, uint32_t code)
{
    uint32_t at = place(top_of_column(addr, code), code);

    return code == 0 ? load_pairs(ds, at) : load16(ds, at, BANK + (1u << code));
}

INLINE void store_v(uint8_t *ds, uint32_t addr, uint32_t code, vec x)
{
    uint32_t at = place(top_of_column(addr, code), code);

    if (code == 0)
        store_pairs(ds, at, x);
    else
        store16(ds, at, BANK + (1u << code), x);
}

INLINE uint32_t load_s(const uint8_t *ds, uint32_t addr, uint32_t code)
{
    uint32_t at = place(addr & 0x1ffc, code), word = 0;

    for (uint32_t i = 0; i < 4; i++)
        word |= (uint32_t)ds[(at + i * BANK) & DS_MASK] << 8 * i;
    return word;
}

INLINE void store_s(uint8_t *ds, uint32_t addr, uint32_t code, uint32_t word)
{
    uint32_t at = place(addr & 0x1ffc, code);

    for (uint32_t i = 0; i < 4; i++)
        ds[(at + i * BANK) & DS_MASK] = (uint8_t)(word >> 8 * i);
}

/* ---- Address instructions ---- */

INLINE void put_long(const struct pieces *p, uint32_t w, uint32_t res)
{
    uint32_t n = f_flags(w);

    if (n < 4)
        p->c[n] = (p->c[n] & ~0x300u) | res >> 31 << 8 | (uint32_t)(res == 0) << 9;
}

INLINE void put_end(const struct pieces *p, uint32_t w, uint32_t addr, uint32_t reg)
{
    uint32_t n = f_flags(w), limit = reg >> 16 & 0x3fff;

    if (n < 4)
        p->c[n] = (p->c[n] & ~0x400u) | (uint32_t)(addr >= limit) << 10;
}

/* The end of ld and st: the address was formed with OR, the flag is formed with +. */
INLINE void end_of_ld(const struct pieces *p, uint32_t w, uint32_t reg)
{
    put_end(p, w, (reg + f_uimm(w)) & 0xffff, reg);
}

/* aadd, and the end of lda and sta: limit and stride keep their values. */
INLINE void advance(const struct pieces *p, uint32_t w, uint32_t n, uint32_t inc)
{
    uint32_t reg = p->a[n], addr = (reg + inc) & 0xffff;

    p->a[n] = (reg & 0xffff0000u) | addr;
    put_end(p, w, addr, reg);
}

INLINE void put_word(const struct pieces *p, uint32_t w, uint32_t res)
{
    p->a[f_dst(w)] = res;
    put_long(p, w, res);
}

/* ---- Flags of vector results ---- */

/* Bit i of the result is the top bit of byte i. The products of the eight bits
 * with the eight bits of the factor fall on different places, so none carries. */
INLINE uint32_t top_bits8(uint64_t x)
{
    return (uint32_t)((x >> 7 & 0x0101010101010101u) * 0x0102040810204080u >> 56);
}

/* The top bit of each byte is set where that byte of x is 0; no byte carries
 * into the next, so this is exact. */
INLINE uint64_t zero_tops(uint64_t x)
{
    const uint64_t low7 = 0x7f7f7f7f7f7f7f7fu;

    return ~(((x & low7) + low7) | x | low7);
}

INLINE uint64_t half(const vec *x, int upper)
{
    uint64_t h;

    memcpy(&h, x->b + 8 * upper, 8);
    return h;
}

INLINE uint32_t top_bits(const vec *x)
{
    return top_bits8(half(x, 0)) | top_bits8(half(x, 1)) << 8;
}

INLINE uint32_t zero_bits(const vec *x)
{
    return top_bits8(zero_tops(half(x, 0))) | top_bits8(zero_tops(half(x, 1))) << 8;
}

/* ---- Vector operands and results ---- */

INLINE vec v_get(const struct pieces *p, uint32_t n)
{
    vec x;

    memcpy(x.b, p->v + 16 * n, 16);
    return x;
}

INLINE vec v_src1(const struct pieces *p, uint32_t w) { return v_get(p, f_src1(w)); }
INLINE vec v_src2(const struct pieces *p, uint32_t w) { return v_get(p, f_src2(w)); }
INLINE vec v_src3(const struct pieces *p, uint32_t w) { return v_get(p, f_src3(w)); }

INLINE vec v_bimm(uint32_t w)
{
    vec x;

    memset(x.b, (int)f_bimm(w), 16);
    return x;
}

INLINE void v_put(const struct pieces *p, uint32_t w, vec res)
{
    memcpy(p->v + 16 * f_dst(w), res.b, 16);
}

/* A result with its flags: sign from the top bit of each byte of sign, zero where
 * a byte of tested is 0. */
INLINE void v_finish(const struct pieces *p, uint32_t w, vec res, vec sign, vec tested)
{
    uint32_t n = f_flags(w);

    v_put(p, w, res);
    if (n < 4)
        p->vc[n] = top_bits(&sign) | zero_bits(&tested) << 16;
}

/* How many of sixteen bytes have their top bit set. A byte of the sum is at most 2, and
 * the product adds all eight in its top byte, where 16 has room. */
INLINE uint32_t count_tops(const vec *x)
{
    const uint64_t ones = 0x0101010101010101u;
    uint64_t sum = (half(x, 0) >> 7 & ones) + (half(x, 1) >> 7 & ones);

    return (uint32_t)(sum * ones >> 56);
}

/* A result whose sign flags are all clear. */
INLINE void v_finish_unsigned(const struct pieces *p, uint32_t w, vec res)
{
    uint32_t n = f_flags(w);

    v_put(p, w, res);
    if (n < 4)
        p->vc[n] = zero_bits(&res) << 16;
}

/* ---- Vector arithmetic ----
 *
 * Whether a true sum or difference is out of range is worked out in bytes, or (vadd9)
 * in sixteen bits, which it fits: so the loops become loops over many lanes at a time.
 *
 * The operations that clip return how many components they clipped: those whose true
 * result is outside the range, so that an end of the range is none. */

INLINE int16_t s8(uint8_t x) { return (int8_t)x; }

INLINE uint8_t clip_u(int16_t t)
{
    return (uint8_t)(t < 0 ? 0 : t > 255 ? 255 : t);
}

INLINE uint8_t top_if(int cond) { return cond ? 0x80 : 0; }

INLINE void vmin_s(const struct pieces *p, uint32_t w, vec x, vec y)
{
    for (int i = 0; i < 16; i++)
        x.b[i] = (int8_t)x.b[i] < (int8_t)y.b[i] ? x.b[i] : y.b[i];
    v_finish(p, w, x, x, x);
}

INLINE void vmax_s(const struct pieces *p, uint32_t w, vec x, vec y)
{
    for (int i = 0; i < 16; i++)
        x.b[i] = (int8_t)x.b[i] > (int8_t)y.b[i] ? x.b[i] : y.b[i];
    v_finish(p, w, x, x, x);
}

/* Unsigned minimum, maximum and absolute value never clip. */
INLINE void vmin_u(const struct pieces *p, uint32_t w, vec x, vec y)
{
    for (int i = 0; i < 16; i++)
        x.b[i] = x.b[i] < y.b[i] ? x.b[i] : y.b[i];
    v_finish_unsigned(p, w, x);
}

INLINE void vmax_u(const struct pieces *p, uint32_t w, vec x, vec y)
{
    for (int i = 0; i < 16; i++)
        x.b[i] = x.b[i] > y.b[i] ? x.b[i] : y.b[i];
    v_finish_unsigned(p, w, x);
}

/* |x| is at most 128 and fits a byte; an absolute value is never negative. */
INLINE uint8_t abs8(uint8_t x) { return (uint8_t)(x & 0x80 ? -x : x); }

/* Only 128 is out of range, the one absolute value that has its top bit set. */
INLINE uint32_t vabs_s(const struct pieces *p, uint32_t w, vec x)
{
    vec t;

    for (int i = 0; i < 16; i++) {
        t.b[i] = abs8(x.b[i]);
        x.b[i] = t.b[i] > 127 ? 127 : t.b[i];
    }
    v_finish_unsigned(p, w, x);
    return count_tops(&t);
}

/* Only 128 is out of range and its flag is that of 127, so the flag of the true
 * result is the top bit of the clipped one. */
INLINE uint32_t vneg_s(const struct pieces *p, uint32_t w, vec x)
{
    vec over;

    for (int i = 0; i < 16; i++) {
        over.b[i] = top_if(x.b[i] == 0x80);
        x.b[i] = (uint8_t)(x.b[i] == 0x80 ? 0x7f : -x.b[i]);
    }
    v_finish(p, w, x, x, x);
    return count_tops(&over);
}

/* A signed sum is out of range exactly where, cut to a byte, it has another sign than
 * both sources; a difference, where the sources have different signs and it has another
 * than the first. The true result then has the first source's sign. So has a clipped one,
 * and the flag is taken from it. */
INLINE uint8_t clip_s(uint8_t t, uint8_t over, uint8_t first)
{
    uint8_t end = first & 0x80 ? 0x80 : 0x7f;

    return over & 0x80 ? end : t;
}

INLINE uint32_t vadd_s(const struct pieces *p, uint32_t w, vec x, vec y)
{
    vec over;

    for (int i = 0; i < 16; i++) {
        uint8_t t = (uint8_t)(x.b[i] + y.b[i]);

        over.b[i] = (x.b[i] ^ t) & (y.b[i] ^ t);
        x.b[i] = clip_s(t, over.b[i], x.b[i]);
    }
    v_finish(p, w, x, x, x);
    return count_tops(&over);
}

INLINE uint32_t vsub_s(const struct pieces *p, uint32_t w, vec x, vec y)
{
    vec over;

    for (int i = 0; i < 16; i++) {
        uint8_t t = (uint8_t)(x.b[i] - y.b[i]);

        over.b[i] = (x.b[i] ^ y.b[i]) & (x.b[i] ^ t);
        x.b[i] = clip_s(t, over.b[i], x.b[i]);
    }
    v_finish(p, w, x, x, x);
    return count_tops(&over);
}

/* Here the sign flag is the overflow: the sum cut to a byte is below a source
 * exactly when it ran over. */
INLINE uint32_t vadd_u(const struct pieces *p, uint32_t w, vec x, vec y)
{
    vec over;

    for (int i = 0; i < 16; i++) {
        uint8_t t = (uint8_t)(x.b[i] + y.b[i]);

        over.b[i] = t < x.b[i] ? 0xff : 0;
        x.b[i] = t | over.b[i];
    }
    v_finish(p, w, x, over, x);
    return count_tops(&over);
}

INLINE uint32_t vsub_u(const struct pieces *p, uint32_t w, vec x, vec y)
{
    vec over;

    for (int i = 0; i < 16; i++) {
        over.b[i] = x.b[i] < y.b[i] ? 0xff : 0;
        x.b[i] = (uint8_t)((x.b[i] - y.b[i]) & ~over.b[i]);
    }
    v_finish(p, w, x, over, x);
    return count_tops(&over);
}

/* ---- The other vector operations ---- */

INLINE void vbitop(const struct pieces *p, uint32_t w)
{
    vec x = v_src1(p, w), y = v_src2(p, w);
    uint64_t lo = bitop(f_bitop(w), half(&x, 0), half(&y, 0));
    uint64_t hi = bitop(f_bitop(w), half(&x, 1), half(&y, 1));

    memcpy(x.b, &lo, 8);
    memcpy(x.b + 8, &hi, 8);
    v_finish_unsigned(p, w, x);
}

INLINE void vand(const struct pieces *p, uint32_t w, vec x, vec y)
{
    for (int i = 0; i < 16; i++)
        x.b[i] &= y.b[i];
    v_finish_unsigned(p, w, x);
}

INLINE void vxor(const struct pieces *p, uint32_t w, vec x, vec y)
{
    for (int i = 0; i < 16; i++)
        x.b[i] ^= y.b[i];
    v_finish_unsigned(p, w, x);
}

INLINE void vor(const struct pieces *p, uint32_t w, vec x, vec y)
{
    for (int i = 0; i < 16; i++)
        x.b[i] |= y.b[i];
    v_finish_unsigned(p, w, x);
}

INLINE void mov_vc(const struct pieces *p, uint32_t w)
{
    vec x;

    memcpy(x.b, p->vc, 16); /* byte k of a word is bits 8k to 8k+7 */
    v_put(p, w, x);
}

INLINE void vswz(const struct pieces *p, uint32_t w)
{
    vec sel = v_src3(p, w), res;
    uint8_t both[32]; /* source 2 behind source 1: the source selector is bit 4 */
    uint64_t out[2] = { 0, 0 };

    memcpy(both, p->v + 16 * f_src1(w), 16);
    memcpy(both + 16, p->v + 16 * f_src2(w), 16);
    if (f_hi(w))
        for (int i = 0; i < 16; i++)
            sel.b[i] = (uint8_t)(sel.b[i] >> 4 | (sel.b[i] & 1) << 4);
    for (int i = 0; i < 16; i++)
        out[i / 8] |= (uint64_t)both[sel.b[i] & 31] << 8 * (i % 8);
    memcpy(res.b, out, 16);
    v_put(p, w, res);
}

/* Shifts. The count n runs from -8 to 7; source 1 times 256, shifted right by
 * n + 8, is the result for either sign of n before it is cut to eight bits. Each
 * bit of n + 8 is a stage of its own: stages shift all lanes alike, and so become
 * loops over lanes also where the machine has no shift with a count per lane. */
INLINE uint16_t count_plus_8(uint8_t y) { return (y & 15) ^ 8; }

INLINE void vshr(const struct pieces *p, uint32_t w, vec x, vec y)
{
    vec res, tested;

    for (int i = 0; i < 16; i++) {
        uint16_t t = (uint16_t)(x.b[i] << 8), n = count_plus_8(y.b[i]);

        t = n & 8 ? t >> 8 : t;
        t = n & 4 ? t >> 4 : t;
        t = n & 2 ? t >> 2 : t;
        t = n & 1 ? t >> 1 : t;
        res.b[i] = (uint8_t)t;
        tested.b[i] = t != 0;
    }
    v_finish(p, w, res, res, tested);
}

INLINE void vsar(const struct pieces *p, uint32_t w, vec x, vec y)
{
    vec res, tested;

    for (int i = 0; i < 16; i++) {
        int16_t t = (int16_t)(s8(x.b[i]) * 256);
        uint16_t n = count_plus_8(y.b[i]);

        t = n & 8 ? t >> 8 : t;
        t = n & 4 ? t >> 4 : t;
        t = n & 2 ? t >> 2 : t;
        t = n & 1 ? t >> 1 : t;
        res.b[i] = (uint8_t)t;
        tested.b[i] = t != 0;
    }
    v_finish(p, w, res, res, tested);
}

/* Source 1 on an end keeps its value and still counts as clipped, so the flag is
 * taken from the ends and not from whether the byte changed. */
INLINE void vclip(const struct pieces *p, uint32_t w)
{
    vec x = v_src1(p, w), y = v_src2(p, w), z = v_src3(p, w), res, sign;

    for (int i = 0; i < 16; i++) {
        int8_t s1 = (int8_t)x.b[i], s2 = (int8_t)y.b[i], s3 = (int8_t)z.b[i];
        int8_t start = s2 < s3 ? s2 : s3, end = s2 < s3 ? s3 : s2;
        int8_t t = s1 < start ? start : s1 > end ? end : s1;

        res.b[i] = (uint8_t)t;
        sign.b[i] = top_if((s1 <= start) | (s1 >= end) | (s2 >= s3));
    }
    v_finish(p, w, res, sign, res);
}

INLINE void vminabs(const struct pieces *p, uint32_t w)
{
    vec x = v_src1(p, w), y = v_src2(p, w);

    for (int i = 0; i < 16; i++) {
        uint8_t s1 = abs8(x.b[i]), s2 = abs8(y.b[i]);
        uint8_t t = s1 < s2 ? s1 : s2;

        x.b[i] = t > 127 ? 127 : t;
    }
    v_finish_unsigned(p, w, x);
}

INLINE uint32_t vadd9(const struct pieces *p, uint32_t w)
{
    vec x = v_src1(p, w), over;
    uint16_t y[16]; /* source 2, then source 3, as sixteen-bit components */

    memcpy(y, p->v + 16 * f_src2(w), 16);
    memcpy(y + 8, p->v + 16 * f_src3(w), 16);
    for (int i = 0; i < 16; i++) {
        int16_t t = (int16_t)(x.b[i] + ((y[i] & 0x1ff) ^ 0x100) - 0x100);

        over.b[i] = top_if(t >> 8 != 0); /* below 0, or above 255 */
        x.b[i] = clip_u(t);
    }
    v_finish(p, w, x, over, x);
    return count_tops(&over);
}

INLINE void vcmpad(const struct pieces *p, uint32_t w, uint32_t mask)
{
    uint32_t n = f_flags(w), in, sign;
    vec x, y, other, less, differ;

    if (n >= 4)
        return; /* it writes nothing but flags */
    x = v_src1(p, w);
    y = v_src2(p, w);
    other = v_get(p, f_src1(w) | 1);
    for (int i = 0; i < 16; i++) {
        uint8_t d = (uint8_t)(y.b[i] > x.b[i] ? y.b[i] - x.b[i] : x.b[i] - y.b[i]);

        less.b[i] = top_if(d < other.b[i]);
        differ.b[i] = d ^ other.b[i];
    }
    in = mask >> 16 ? mask : p->vc[n];
    sign = (uint32_t)bitop(f_cmpop(w), in, top_bits(&less)) & 0xffff;
    p->vc[n] = sign | zero_bits(&differ) << 16;
}

/* ---- One instruction ---- */

/* The cell accesses of a done load or store, the distinct (bank, cell) pairs of its
 * address list; selftest counts them for every address and code. A vertical one of
 * code 0 uses both halves of each cell it enters. */
enum { CELLS_H = 16, CELLS_S = 4 };

INLINE uint32_t cells_v(uint32_t code) { return code == 0 ? 8 : 16; }

/* Load or store at the address, in one of the three ways; n is the data register
 * in $v or $r, and reg the base, for its stride code. Each gives the cell accesses. */
enum way { HORIZONTAL, VERTICAL, SCALAR };

INLINE uint32_t load(const struct pieces *p, enum way way, uint32_t n,
                     uint32_t addr, uint32_t reg)
{
    uint32_t code = reg >> 30;
    vec x;

    if (way == SCALAR) {
        p->r[n] = load_s(p->ds, addr, code);
        return CELLS_S;
    }
    x = way == HORIZONTAL ? load_h(p->ds, addr, code) : load_v(p->ds, addr, code);
    memcpy(p->v + 16 * n, x.b, 16);
    return way == HORIZONTAL ? CELLS_H : cells_v(code);
}

INLINE uint32_t store(const struct pieces *p, enum way way, uint32_t n,
                      uint32_t addr, uint32_t reg)
{
    uint32_t code = reg >> 30;

    if (way == SCALAR) {
        store_s(p->ds, addr, code, p->r[n]);
        return CELLS_S;
    }
    if (way == HORIZONTAL) {
        store_h(p->ds, addr, code, v_get(p, n));
        return CELLS_H;
    }
    store_v(p->ds, addr, code, v_get(p, n));
    return cells_v(code);
}

INLINE uint32_t ld(const struct pieces *p, uint32_t w, enum way way)
{
    uint32_t reg = p->a[f_src1(w)];
    uint32_t cells = load(p, way, f_dst(w), reg | f_uimm(w), reg);

    end_of_ld(p, w, reg);
    return cells;
}

INLINE uint32_t st(const struct pieces *p, uint32_t w, enum way way)
{
    uint32_t reg = p->a[f_dst(w)];
    uint32_t cells = store(p, way, f_src1(w), reg | f_uimm(w), reg);

    end_of_ld(p, w, reg);
    return cells;
}

INLINE uint32_t lda(const struct pieces *p, uint32_t w, enum way way, uint32_t inc)
{
    uint32_t reg = p->a[f_src1(w)];
    uint32_t cells = load(p, way, f_dst(w), reg, reg);

    advance(p, w, f_src1(w), inc);
    return cells;
}

INLINE uint32_t sta(const struct pieces *p, uint32_t w, enum way way, uint32_t inc)
{
    uint32_t reg = p->a[f_dst(w)];
    uint32_t cells = store(p, way, f_src1(w), reg, reg);

    advance(p, w, f_dst(w), inc);
    return cells;
}

INLINE uint32_t set_half(uint32_t reg, uint32_t w, uint32_t shift)
{
    return (reg & ~(0xffffu << shift)) | f_imm16(w) << shift;
}

/* What the steps done have added up to. */
struct counts { uint64_t accesses, clipped; };

/* Does one instruction and returns its answer; adds what it counts if it is done. */
static uint32_t exec(const struct pieces *p, uint32_t w, uint32_t side,
                     uint32_t mask, struct counts *counts)
{
    uint32_t op = w >> 24, cells = 0, clipped = 0;

    switch (op) {
    case 0x88: vmin_s(p, w, v_src1(p, w), v_src2(p, w)); break;
    case 0x89: vmax_s(p, w, v_src1(p, w), v_src2(p, w)); break;
    case 0x8a: clipped = vabs_s(p, w, v_src1(p, w)); break;
    case 0x8b: clipped = vneg_s(p, w, v_src1(p, w)); break;
    case 0x8c: clipped = vadd_s(p, w, v_src1(p, w), v_src2(p, w)); break;
    case 0x8d: clipped = vsub_s(p, w, v_src1(p, w), v_src2(p, w)); break;
    case 0x8e: vsar(p, w, v_src1(p, w), v_src2(p, w)); break;
    case 0x8f:
        if (mask > 0x1ffff)
            return SECOND_BAD_MASK;
        vcmpad(p, w, mask);
        break;

    case 0x94: vbitop(p, w); break;
    case 0x98: vmin_u(p, w, v_src1(p, w), v_src2(p, w)); break;
    case 0x99: vmax_u(p, w, v_src1(p, w), v_src2(p, w)); break;
    case 0x9a: v_finish_unsigned(p, w, v_src1(p, w)); break; /* vabs u */
    case 0x9b: vswz(p, w); break;
    case 0x9c: clipped = vadd_u(p, w, v_src1(p, w), v_src2(p, w)); break;
    case 0x9d: clipped = vsub_u(p, w, v_src1(p, w), v_src2(p, w)); break;
    case 0x9e: vshr(p, w, v_src1(p, w), v_src2(p, w)); break;
    case 0x9f: clipped = vadd9(p, w); break;

    case 0xa4: vclip(p, w); break;
    case 0xa5: vminabs(p, w); break;
    case 0xa8: vmin_s(p, w, v_src1(p, w), v_bimm(w)); break;
    case 0xa9: vmax_s(p, w, v_src1(p, w), v_bimm(w)); break;
    case 0xaa: vand(p, w, v_src1(p, w), v_bimm(w)); break;
    case 0xab: vxor(p, w, v_src1(p, w), v_bimm(w)); break;
    case 0xac: clipped = vadd_s(p, w, v_src1(p, w), v_bimm(w)); break;
    case 0xad: v_finish(p, w, v_bimm(w), v_bimm(w), v_bimm(w)); break; /* vmov */
    case 0xae: vsar(p, w, v_src1(p, w), v_bimm(w)); break;
    case 0xaf: vor(p, w, v_src1(p, w), v_bimm(w)); break;

    case 0xb8: vmin_u(p, w, v_src1(p, w), v_bimm(w)); break;
    case 0xb9: vmax_u(p, w, v_src1(p, w), v_bimm(w)); break;
    case 0xba: v_finish_unsigned(p, w, v_src1(p, w)); break; /* mov */
    case 0xbb: mov_vc(p, w); break;
    case 0xbc: clipped = vadd_u(p, w, v_src1(p, w), v_bimm(w)); break;
    case 0xbd: clipped = vsub_u(p, w, v_src1(p, w), v_bimm(w)); break;
    case 0xbe: vshr(p, w, v_src1(p, w), v_bimm(w)); break;
    case 0xbf: break;

    case 0xc0:
        if (side > 31)
            return SECOND_BAD_SIDE;
        cells = lda(p, w, HORIZONTAL, p->a[side]);
        break;
    case 0xc1:
        if (side > 31)
            return SECOND_BAD_SIDE;
        cells = lda(p, w, VERTICAL, p->a[side]);
        break;
    case 0xc2:
        if (side > 31)
            return SECOND_BAD_SIDE;
        cells = lda(p, w, SCALAR, p->a[side]);
        break;
    case 0xc4:
        if (side > 31)
            return SECOND_BAD_SIDE;
        cells = sta(p, w, HORIZONTAL, p->a[side]);
        break;
    case 0xc5:
        if (side > 31)
            return SECOND_BAD_SIDE;
        cells = sta(p, w, VERTICAL, p->a[side]);
        break;
    case 0xc6:
        if (side > 31)
            return SECOND_BAD_SIDE;
        cells = sta(p, w, SCALAR, p->a[side]);
        break;
    case 0xca:
        if (side > 31)
            return SECOND_BAD_SIDE;
        advance(p, w, f_dst(w), p->a[side]);
        break;
    case 0xcb:
        if (side > 31)
            return SECOND_BAD_SIDE;
        put_word(p, w, p->a[f_src1(w)] + p->a[side]);
        break;
    case 0xcc: p->a[f_dst(w)] = set_half(p->a[f_dst(w)], w, 0); break;
    case 0xcd: p->a[f_dst(w)] = set_half(p->a[f_dst(w)], w, 16); break;

    case 0xd0: cells = lda(p, w, HORIZONTAL, f_imm(w)); break;
    case 0xd1: cells = lda(p, w, VERTICAL, f_imm(w)); break;
    case 0xd2: cells = lda(p, w, SCALAR, f_imm(w)); break;
    case 0xd3:
        put_word(p, w, (uint32_t)bitop(f_bitop(w), p->a[f_src1(w)], p->a[f_src2(w)]));
        break;
    case 0xd4: cells = sta(p, w, HORIZONTAL, f_imm(w)); break;
    case 0xd5: cells = sta(p, w, VERTICAL, f_imm(w)); break;
    case 0xd6: cells = sta(p, w, SCALAR, f_imm(w)); break;
    case 0xd8: cells = ld(p, w, HORIZONTAL); break;
    case 0xd9: cells = ld(p, w, VERTICAL); break;
    case 0xda: cells = ld(p, w, SCALAR); break;
    case 0xdc: cells = st(p, w, HORIZONTAL); break;
    case 0xdd: cells = st(p, w, VERTICAL); break;
    case 0xde: cells = st(p, w, SCALAR); break;
    case 0xdf: break;

    default:
        return op < 0x80 || op > 0xdf ? SECOND_OTHER_UNIT : SECOND_UNDOCUMENTED;
    }
    counts->accesses += cells;
    counts->clipped += clipped;
    return SECOND_DONE;
}

/* ---- The two calls ---- */

static int lengths_fit(size_t nds, size_t na, size_t nr, size_t nc,
                       size_t nvc, size_t nv)
{
    return nds == SECOND_DS && na == SECOND_A && nr == SECOND_R && nc == SECOND_C &&
           nvc == SECOND_VC && nv == SECOND_V;
}

uint32_t second_step(uint32_t word, uint32_t side, uint32_t mask,
                     uint8_t *ds, size_t nds, uint32_t *a, size_t na,
                     uint32_t *r, size_t nr, uint32_t *c, size_t nc,
                     uint32_t *vc, size_t nvc, uint8_t *v, size_t nv,
                     uint64_t *accesses, uint64_t *clipped)
{
    const struct pieces p = { ds, a, r, c, vc, v };
    struct counts counts = { 0, 0 };
    uint32_t answer = SECOND_BAD_LENGTH;

    if (lengths_fit(nds, na, nr, nc, nvc, nv))
        answer = exec(&p, word, side, mask, &counts);
    *accesses = counts.accesses;
    *clipped = counts.clipped;
    return answer;
}

uint32_t second_run(const uint32_t *words, size_t nwords, uint32_t budget,
                    uint8_t *ds, size_t nds, uint32_t *a, size_t na,
                    uint32_t *r, size_t nr, uint32_t *c, size_t nc,
                    uint32_t *vc, size_t nvc, uint8_t *v, size_t nv,
                    uint32_t *steps, uint64_t *accesses, uint64_t *clipped)
{
    const struct pieces p = { ds, a, r, c, vc, v };
    size_t triples = nwords / 3;
    uint32_t most = triples < budget ? (uint32_t)triples : budget;
    uint32_t done = 0, answer = SECOND_DONE;
    struct counts counts = { 0, 0 };

    *steps = 0;
    *accesses = 0;
    *clipped = 0;
    if (!lengths_fit(nds, na, nr, nc, nvc, nv))
        return SECOND_BAD_LENGTH;
    if (nwords % 3 != 0)
        return SECOND_BAD_LIST;
    for (; done < most; done++, words += 3) {
        answer = exec(&p, words[0], words[1], words[2], &counts);
        if (answer != SECOND_DONE)
            break;
    }
    *steps = done;
    *accesses = counts.accesses;
    *clipped = counts.clipped;
    if (answer == SECOND_DONE && done < triples)
        answer = SECOND_BUDGET;
    return answer;
}
