/* places.c - the places that an instruction reads and writes, by a table of its own
 * over the opcode, and whether two instructions may be exchanged. No instruction
 * is run here: of the six pieces only $a is looked at, for the address of a load
 * or store. */
#include "vp1_second.h"

#include <string.h>

/* ---- The table ----
 *
 * What an opcode reads and what it writes, a bit for each. The bits stand in the
 * order in which the places are listed, which is the same for every opcode. */

enum {
    DOCUMENTED = 1 << 0,

    /* Read. */
    A_SRC1 = 1 << 1,    /* both halves, here and in the next three */
    A_DST = 1 << 2,
    A_SRC2 = 1 << 3,
    A_SIDE = 1 << 4,
    LOW_SIDE = 1 << 5,  /* the low half of $a[SRC2S] */
    R_SRC1 = 1 << 6,
    V_SRC1 = 1 << 7,
    V_PAIR = 1 << 8,    /* $v[SRC1 OR 1] */
    V_SRC2 = 1 << 9,
    V_SRC3 = 1 << 10,
    INPUT = 1 << 11,    /* the signs of $vc[VCDST mod 4], unless the mask is valid */
    ALL_VC = 1 << 12,
    LOADED = 1 << 13,   /* bytes; the base is $a[SRC1] */

    /* Written. */
    TO_LOW = 1 << 14,   /* a half of $a[DST] */
    TO_HIGH = 1 << 15,
    TO_R = 1 << 16,
    TO_V = 1 << 17,
    STORED = 1 << 18,   /* bytes; the base is $a[DST] */
    TO_BASE = 1 << 19,  /* the low half of the base */
    LONG = 1 << 20,     /* flags, here and below: only if the field is below 4 */
    SHORT = 1 << 21,
    VFLAGS = 1 << 22,   /* signs and zeros */

    /* How an address list is made. */
    VERTICAL = 1 << 23, /* neither of the two: horizontal */
    SCALAR = 1 << 24,
    WITH_UIMM = 1 << 25
};

/* The rows of docs/PLACES.md. */
enum {
    NOP = DOCUMENTED,
    SETLO = DOCUMENTED | TO_LOW,
    SETHI = DOCUMENTED | TO_HIGH,
    TO_BOTH = DOCUMENTED | A_SRC1 | TO_LOW | TO_HIGH | LONG,
    ADD = TO_BOTH | A_SIDE,
    BITOP = TO_BOTH | A_SRC2,
    AADD = DOCUMENTED | A_DST | LOW_SIDE | TO_LOW | SHORT,

    LOAD = DOCUMENTED | A_SRC1 | LOADED | SHORT,
    LOAD_H = LOAD | TO_V,
    LOAD_V = LOAD | TO_V | VERTICAL,
    LOAD_S = LOAD | TO_R | SCALAR,
    STORE = DOCUMENTED | A_DST | STORED | SHORT,
    STORE_H = STORE | V_SRC1,
    STORE_V = STORE | V_SRC1 | VERTICAL,
    STORE_S = STORE | R_SRC1 | SCALAR,
    BY_SIDE = LOW_SIDE | TO_BASE, /* what lda and sta add to these */
    BY_IMM = TO_BASE,

    V0 = DOCUMENTED | TO_V | VFLAGS,
    V1 = V0 | V_SRC1,
    V2 = V1 | V_SRC2,
    V3 = V2 | V_SRC3,
    SWIZZLE = DOCUMENTED | V_SRC1 | V_SRC2 | V_SRC3 | TO_V,
    FROM_VC = DOCUMENTED | ALL_VC | TO_V,
    CMPAD = DOCUMENTED | V_SRC1 | V_PAIR | V_SRC2 | INPUT | VFLAGS
};

static const uint32_t table[256] = {
    [0x88] = V2,      /* vmin s */
    [0x89] = V2,      /* vmax s */
    [0x8a] = V1,      /* vabs s */
    [0x8b] = V1,      /* vneg s */
    [0x8c] = V2,      /* vadd s */
    [0x8d] = V2,      /* vsub s */
    [0x8e] = V2,      /* vsar */
    [0x8f] = CMPAD,

    [0x94] = V2,      /* vbitop */
    [0x98] = V2,      /* vmin u */
    [0x99] = V2,      /* vmax u */
    [0x9a] = V1,      /* vabs u */
    [0x9b] = SWIZZLE,
    [0x9c] = V2,      /* vadd u */
    [0x9d] = V2,      /* vsub u */
    [0x9e] = V2,      /* vshr */
    [0x9f] = V3,      /* vadd9 */

    [0xa4] = V3,      /* vclip */
    [0xa5] = V2,      /* vminabs */
    [0xa8] = V1,      /* vmin s BIMM */
    [0xa9] = V1,      /* vmax s BIMM */
    [0xaa] = V1,      /* vand */
    [0xab] = V1,      /* vxor */
    [0xac] = V1,      /* vadd s BIMM */
    [0xad] = V0,      /* vmov */
    [0xae] = V1,      /* vsar BIMM */
    [0xaf] = V1,      /* vor */

    [0xb8] = V1,      /* vmin u BIMM */
    [0xb9] = V1,      /* vmax u BIMM */
    [0xba] = V1,      /* mov */
    [0xbb] = FROM_VC, /* mov from $vc */
    [0xbc] = V1,      /* vadd u BIMM */
    [0xbd] = V1,      /* vsub u BIMM */
    [0xbe] = V1,      /* vshr BIMM */
    [0xbf] = NOP,

    [0xc0] = LOAD_H | BY_SIDE,
    [0xc1] = LOAD_V | BY_SIDE,
    [0xc2] = LOAD_S | BY_SIDE,
    [0xc4] = STORE_H | BY_SIDE,
    [0xc5] = STORE_V | BY_SIDE,
    [0xc6] = STORE_S | BY_SIDE,
    [0xca] = AADD,
    [0xcb] = ADD,
    [0xcc] = SETLO,
    [0xcd] = SETHI,

    [0xd0] = LOAD_H | BY_IMM,
    [0xd1] = LOAD_V | BY_IMM,
    [0xd2] = LOAD_S | BY_IMM,
    [0xd3] = BITOP,
    [0xd4] = STORE_H | BY_IMM,
    [0xd5] = STORE_V | BY_IMM,
    [0xd6] = STORE_S | BY_IMM,
    [0xd8] = LOAD_H | WITH_UIMM,
    [0xd9] = LOAD_V | WITH_UIMM,
    [0xda] = LOAD_S | WITH_UIMM,
    [0xdc] = STORE_H | WITH_UIMM,
    [0xdd] = STORE_V | WITH_UIMM,
    [0xde] = STORE_S | WITH_UIMM,
    [0xdf] = NOP,
};

/* ---- The list of one triple ---- */

struct triple { uint32_t word, side, mask; };

/* Those read, then those written. */
struct found { uint32_t at[SECOND_PLACES], reads, writes; };

static uint32_t field(uint32_t word, uint32_t shift, uint32_t bits)
{
    return word >> shift & ((1u << bits) - 1);
}

static uint32_t dst(uint32_t word) { return field(word, 19, 5); }
static uint32_t src1(uint32_t word) { return field(word, 14, 5); }
static uint32_t src2(uint32_t word) { return field(word, 9, 5); }
static uint32_t src3(uint32_t word) { return field(word, 4, 5); }
static uint32_t uimm(uint32_t word) { return field(word, 3, 11); }
static uint32_t flags(uint32_t word) { return field(word, 0, 3); }

static uint32_t low_half(uint32_t n) { return SECOND_PLACE_A + 2 * n; }
static uint32_t high_half(uint32_t n) { return SECOND_PLACE_A + 2 * n + 1; }
static uint32_t signs(uint32_t n) { return SECOND_PLACE_VC + 2 * n; }
static uint32_t zeros(uint32_t n) { return SECOND_PLACE_VC + 2 * n + 1; }

/* Where the byte of a 13-bit address lies, under a stride code. */
static uint32_t byte_place(uint32_t addr, uint32_t code)
{
    uint32_t hilo = field(addr, 4, 1), cell = field(addr, 5, 8);
    uint32_t k = code == 0 ? field(addr, 5, 3) : addr / (16u << code);
    uint32_t bank = (addr % 16 + k) % 16;

    return SECOND_PLACE_DS + bank * 512 + cell * 2 + hilo;
}

/* The places of an address list, in its order; gives how many. */
static uint32_t byte_places(uint32_t *at, uint32_t use, uint32_t word, uint32_t base)
{
    uint32_t code = base >> 30, addr = base & 0xffff;
    uint32_t shift = use & VERTICAL ? 4 + code : 0; /* of the bits that run */
    uint32_t n = use & SCALAR ? 4 : 16;

    if (use & WITH_UIMM)
        addr |= uimm(word);
    addr &= 0x1fff & ~((n - 1) << shift);
    for (uint32_t i = 0; i < n; i++)
        at[i] = byte_place(addr | i << shift, code);
    return n;
}

static void read_one(struct found *f, uint32_t place) { f->at[f->reads++] = place; }

static void read_both(struct found *f, uint32_t n)
{
    read_one(f, low_half(n));
    read_one(f, high_half(n));
}

static void find_reads(struct found *f, uint32_t use, struct triple t, const uint32_t *a)
{
    if (use & A_SRC1)
        read_both(f, src1(t.word));
    if (use & A_DST)
        read_both(f, dst(t.word));
    if (use & A_SRC2)
        read_both(f, src2(t.word));
    if (use & A_SIDE)
        read_both(f, t.side);
    if (use & LOW_SIDE)
        read_one(f, low_half(t.side));
    if (use & R_SRC1)
        read_one(f, SECOND_PLACE_R + src1(t.word));
    if (use & V_SRC1)
        read_one(f, SECOND_PLACE_V + src1(t.word));
    if (use & V_PAIR)
        read_one(f, SECOND_PLACE_V + (src1(t.word) | 1));
    if (use & V_SRC2)
        read_one(f, SECOND_PLACE_V + src2(t.word));
    if (use & V_SRC3)
        read_one(f, SECOND_PLACE_V + src3(t.word));
    if (use & INPUT && t.mask >> 16 == 0)
        read_one(f, signs(flags(t.word) % 4));
    for (uint32_t n = 0; use & ALL_VC && n < SECOND_VC; n++) {
        read_one(f, signs(n));
        read_one(f, zeros(n));
    }
    if (use & LOADED)
        f->reads += byte_places(f->at + f->reads, use, t.word, a[src1(t.word)]);
}

static void write_one(struct found *f, uint32_t place)
{
    f->at[f->reads + f->writes++] = place;
}

static void find_writes(struct found *f, uint32_t use, struct triple t, const uint32_t *a)
{
    uint32_t n = flags(t.word);

    if (use & TO_LOW)
        write_one(f, low_half(dst(t.word)));
    if (use & TO_HIGH)
        write_one(f, high_half(dst(t.word)));
    if (use & TO_R)
        write_one(f, SECOND_PLACE_R + dst(t.word));
    if (use & TO_V)
        write_one(f, SECOND_PLACE_V + dst(t.word));
    if (use & STORED)
        f->writes += byte_places(f->at + f->reads, use, t.word, a[dst(t.word)]);
    if (use & TO_BASE)
        write_one(f, low_half(use & STORED ? dst(t.word) : src1(t.word)));
    if (n >= 4)
        return;
    if (use & LONG)
        write_one(f, SECOND_PLACE_C + 2 * n);
    if (use & SHORT)
        write_one(f, SECOND_PLACE_C + 2 * n + 1);
    if (use & VFLAGS) {
        write_one(f, signs(n));
        write_one(f, zeros(n));
    }
}

/* Returns 0 or the refusal, 1 to 4; then the list is empty. */
static uint32_t find(struct found *f, struct triple t, const uint32_t *a)
{
    uint32_t op = t.word >> 24, use = table[op];

    f->reads = f->writes = 0;
    if (!(use & DOCUMENTED))
        return op < 0x80 || op > 0xdf ? SECOND_OTHER_UNIT : SECOND_UNDOCUMENTED;
    if (use & (A_SIDE | LOW_SIDE) && t.side > 31)
        return SECOND_BAD_SIDE;
    if (use & INPUT && t.mask > 0x1ffff)
        return SECOND_BAD_MASK;
    find_reads(f, use, t, a);
    find_writes(f, use, t, a);
    return SECOND_DONE;
}

/* ---- Two triples ---- */

static int names(const struct found *f, uint32_t place)
{
    for (uint32_t i = 0; i < f->reads + f->writes; i++)
        if (f->at[i] == place)
            return 1;
    return 0;
}

/* The first place that one writes and the other reads or writes, if there is any. */
static int first_clash(const struct found *one, const struct found *other, uint32_t *place)
{
    const uint32_t *written = one->at + one->reads;

    for (uint32_t i = 0; i < one->writes; i++)
        if (names(other, written[i])) {
            *place = written[i];
            return 1;
        }
    return 0;
}

/* ---- The two calls ---- */

static int lengths_fit(size_t nds, size_t na, size_t nr, size_t nc,
                       size_t nvc, size_t nv)
{
    return nds == SECOND_DS && na == SECOND_A && nr == SECOND_R && nc == SECOND_C &&
           nvc == SECOND_VC && nv == SECOND_V;
}

uint32_t second_places(uint32_t word, uint32_t side, uint32_t mask,
                       const uint8_t *ds, size_t nds, const uint32_t *a, size_t na,
                       const uint32_t *r, size_t nr, const uint32_t *c, size_t nc,
                       const uint32_t *vc, size_t nvc, const uint8_t *v, size_t nv,
                       uint32_t *buffer, size_t nbuffer,
                       uint32_t *reads, uint32_t *writes)
{
    const struct triple t = { word, side, mask };
    struct found f;
    uint32_t answer;

    (void)ds, (void)r, (void)c, (void)vc, (void)v;
    *reads = *writes = 0;
    if (!lengths_fit(nds, na, nr, nc, nvc, nv) || nbuffer < SECOND_PLACES)
        return SECOND_BAD_LENGTH;
    answer = find(&f, t, a);
    memcpy(buffer, f.at, (f.reads + f.writes) * sizeof f.at[0]);
    *reads = f.reads;
    *writes = f.writes;
    return answer;
}

uint32_t second_may_swap(uint32_t word1, uint32_t side1, uint32_t mask1,
                         uint32_t word2, uint32_t side2, uint32_t mask2,
                         const uint8_t *ds, size_t nds, const uint32_t *a, size_t na,
                         const uint32_t *r, size_t nr, const uint32_t *c, size_t nc,
                         const uint32_t *vc, size_t nvc, const uint8_t *v, size_t nv,
                         uint32_t *clash, uint32_t *place, uint32_t *writer)
{
    const struct triple t1 = { word1, side1, mask1 }, t2 = { word2, side2, mask2 };
    struct found f1, f2;
    uint32_t answer;

    (void)ds, (void)r, (void)c, (void)vc, (void)v;
    *clash = *place = *writer = 0;
    if (!lengths_fit(nds, na, nr, nc, nvc, nv))
        return SECOND_BAD_LENGTH;
    answer = find(&f1, t1, a);
    if (answer == SECOND_DONE)
        answer = find(&f2, t2, a);
    if (answer != SECOND_DONE)
        return answer;
    if (first_clash(&f1, &f2, place))
        *writer = 1;
    else if (first_clash(&f2, &f1, place))
        *writer = 2;
    *clash = *writer != 0;
    return SECOND_DONE;
}
