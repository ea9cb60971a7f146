/* reading.c - checks the places of an instruction against another reading of the
 * table of places: what each opcode reads and writes is written down here from the
 * chapters' operand lists, worked out for random triples and states, and compared
 * with what second_places says, as sets. Prints one line and exits 0 if there is no
 * difference; else prints the first one and exits 1. */
#include "documented.h"
#include "vp1_second.h"

#include <stdio.h>

enum { TRIPLES = 10000 }; /* for each opcode */

static uint8_t ds[SECOND_DS], v[SECOND_V];
static uint32_t a[SECOND_A], r[SECOND_R], c[SECOND_C], vc[SECOND_VC];

struct triple { uint32_t word, side, mask; };

static uint32_t field(uint32_t word, int first, int width)
{
    return word >> first & ((1u << width) - 1);
}

/* ---- What each opcode reads and writes ---- */

/* Parts of an instruction, a bit each. A register is named by its file and by the
 * field that selects it; SIDE is SRC2S. */
enum {
    V_SRC1 = 1 << 0,
    V_SRC2 = 1 << 1,
    V_SRC3 = 1 << 2,
    V_PAIR = 1 << 3,   /* register SRC1 OR 1 */
    V_DST = 1 << 4,
    R_SRC1 = 1 << 5,
    R_DST = 1 << 6,
    SRC1_LOW = 1 << 7, /* these eight are halves of $a */
    SRC1_HIGH = 1 << 8,
    SRC2_LOW = 1 << 9,
    SRC2_HIGH = 1 << 10,
    SIDE_LOW = 1 << 11,
    SIDE_HIGH = 1 << 12,
    DST_LOW = 1 << 13,
    DST_HIGH = 1 << 14,
    LONG = 1 << 15,    /* sign and zero of $c[CDST], if below 4 */
    SHORT = 1 << 16,   /* end of $c[CDST], if below 4 */
    SIGNS_ZEROS = 1 << 17, /* of $vc[VCDST], if below 4 */
    INPUT = 1 << 18,   /* signs of $vc[VCDST mod 4], if the mask is not valid */
    ALL_VC = 1 << 19,
    ROW = 1 << 20,     /* bytes of a horizontal, vertical or scalar access: at */
    COLUMN = 1 << 21,  /* $a[SRC1] where they are read, at $a[DST] where written */
    SCALAR = 1 << 22
};

enum {
    TWO = V_SRC1 | V_SRC2,
    THREE = TWO | V_SRC3,
    RESULT = V_DST | SIGNS_ZEROS,
    A_SRC1 = SRC1_LOW | SRC1_HIGH,
    A_SRC2 = SRC2_LOW | SRC2_HIGH,
    A_SIDE = SIDE_LOW | SIDE_HIGH,
    A_DST = DST_LOW | DST_HIGH
};

struct shape { uint32_t reads, writes; };

static const struct shape shapes[256] = {
    [0x88] = { TWO, RESULT },    /* vmin s */
    [0x89] = { TWO, RESULT },    /* vmax s */
    [0x8a] = { V_SRC1, RESULT }, /* vabs s */
    [0x8b] = { V_SRC1, RESULT }, /* vneg s */
    [0x8c] = { TWO, RESULT },    /* vadd s */
    [0x8d] = { TWO, RESULT },    /* vsub s */
    [0x8e] = { TWO, RESULT },    /* vsar */
    [0x8f] = { TWO | V_PAIR | INPUT, SIGNS_ZEROS }, /* vcmpad */
    [0x94] = { TWO, RESULT },    /* vbitop */
    [0x98] = { TWO, RESULT },    /* vmin u */
    [0x99] = { TWO, RESULT },    /* vmax u */
    [0x9a] = { V_SRC1, RESULT }, /* vabs u */
    [0x9b] = { THREE, V_DST },   /* vswz */
    [0x9c] = { TWO, RESULT },    /* vadd u */
    [0x9d] = { TWO, RESULT },    /* vsub u */
    [0x9e] = { TWO, RESULT },    /* vshr */
    [0x9f] = { THREE, RESULT },  /* vadd9 */
    [0xa4] = { THREE, RESULT },  /* vclip */
    [0xa5] = { TWO, RESULT },    /* vminabs */
    [0xa8] = { V_SRC1, RESULT }, /* vmin s; from here on source 2 is BIMM */
    [0xa9] = { V_SRC1, RESULT }, /* vmax s */
    [0xaa] = { V_SRC1, RESULT }, /* vand */
    [0xab] = { V_SRC1, RESULT }, /* vxor */
    [0xac] = { V_SRC1, RESULT }, /* vadd s */
    [0xad] = { 0, RESULT },      /* vmov */
    [0xae] = { V_SRC1, RESULT }, /* vsar */
    [0xaf] = { V_SRC1, RESULT }, /* vor */
    [0xb8] = { V_SRC1, RESULT }, /* vmin u */
    [0xb9] = { V_SRC1, RESULT }, /* vmax u */
    [0xba] = { V_SRC1, RESULT }, /* mov, which has no immediate */
    [0xbb] = { ALL_VC, V_DST },  /* mov from $vc, nor has this */
    [0xbc] = { V_SRC1, RESULT }, /* vadd u */
    [0xbd] = { V_SRC1, RESULT }, /* vsub u */
    [0xbe] = { V_SRC1, RESULT }, /* vshr */
    [0xbf] = { 0, 0 },           /* nop */
    [0xc0] = { A_SRC1 | SIDE_LOW | ROW, V_DST | SRC1_LOW | SHORT },    /* ldavh */
    [0xc1] = { A_SRC1 | SIDE_LOW | COLUMN, V_DST | SRC1_LOW | SHORT }, /* ldavv */
    [0xc2] = { A_SRC1 | SIDE_LOW | SCALAR, R_DST | SRC1_LOW | SHORT }, /* ldas */
    [0xc4] = { V_SRC1 | A_DST | SIDE_LOW, ROW | DST_LOW | SHORT },     /* stavh */
    [0xc5] = { V_SRC1 | A_DST | SIDE_LOW, COLUMN | DST_LOW | SHORT },  /* stavv */
    [0xc6] = { R_SRC1 | A_DST | SIDE_LOW, SCALAR | DST_LOW | SHORT },  /* stas */
    [0xca] = { A_DST | SIDE_LOW, DST_LOW | SHORT },                    /* aadd */
    [0xcb] = { A_SRC1 | A_SIDE, A_DST | LONG },                        /* add */
    [0xcc] = { 0, DST_LOW },                                           /* setlo */
    [0xcd] = { 0, DST_HIGH },                                          /* sethi */
    [0xd0] = { A_SRC1 | ROW, V_DST | SRC1_LOW | SHORT },               /* ldavh IMM */
    [0xd1] = { A_SRC1 | COLUMN, V_DST | SRC1_LOW | SHORT },            /* ldavv IMM */
    [0xd2] = { A_SRC1 | SCALAR, R_DST | SRC1_LOW | SHORT },            /* ldas IMM */
    [0xd3] = { A_SRC1 | A_SRC2, A_DST | LONG },                        /* bitop */
    [0xd4] = { V_SRC1 | A_DST, ROW | DST_LOW | SHORT },                /* stavh IMM */
    [0xd5] = { V_SRC1 | A_DST, COLUMN | DST_LOW | SHORT },             /* stavv IMM */
    [0xd6] = { R_SRC1 | A_DST, SCALAR | DST_LOW | SHORT },             /* stas IMM */
    [0xd8] = { A_SRC1 | ROW, V_DST | SHORT },                          /* ldvh */
    [0xd9] = { A_SRC1 | COLUMN, V_DST | SHORT },                       /* ldvv */
    [0xda] = { A_SRC1 | SCALAR, R_DST | SHORT },                       /* lds */
    [0xdc] = { V_SRC1 | A_DST, ROW | SHORT },                          /* stvh */
    [0xdd] = { V_SRC1 | A_DST, COLUMN | SHORT },                       /* stvv */
    [0xde] = { R_SRC1 | A_DST, SCALAR | SHORT },                       /* sts */
    [0xdf] = { 0, 0 },                                                 /* nop */
};

/* ---- The sets ---- */

enum {
    END = 144 + SECOND_DS, /* the number of places; also stands for any above it */
    READ_HERE = 1, WRITTEN_HERE = 2, READ_THERE = 4, WRITTEN_THERE = 8
};

/* Which sets each place is in, and the places that are in any. */
static uint8_t sets[END + 1];
static uint32_t found[2 * SECOND_PLACES + 32];
static int nfound;

static void put(uint32_t place, int set)
{
    if (place > END)
        place = END;
    if (sets[place] == 0)
        found[nfound++] = place;
    sets[place] = (uint8_t)(sets[place] | set);
}

static void empty_sets(void)
{
    while (nfound > 0)
        sets[found[--nfound]] = 0;
}

/* ---- The reading ---- */

static void put_registers(struct triple t, uint32_t parts, int set)
{
    uint32_t dst = field(t.word, 19, 5), src1 = field(t.word, 14, 5);
    uint32_t src2 = field(t.word, 9, 5), src3 = field(t.word, 4, 5);
    const uint32_t places[15] = { /* in the order of the bits */
        96 + src1, 96 + src2, 96 + src3, 96 + (src1 | 1), 96 + dst,
        64 + src1, 64 + dst,
        2 * src1, 2 * src1 + 1, 2 * src2, 2 * src2 + 1,
        2 * t.side, 2 * t.side + 1, 2 * dst, 2 * dst + 1
    };

    for (int i = 0; i < 15; i++)
        if (parts >> i & 1)
            put(places[i], set);
}

static void put_flags(struct triple t, uint32_t parts, int set)
{
    uint32_t n = field(t.word, 0, 3);

    if (parts & ALL_VC)
        for (uint32_t i = 0; i < 8; i++)
            put(136 + i, set);
    if (parts & INPUT && field(t.mask, 16, 1) == 0)
        put(136 + 2 * (n % 4), set);
    if (n >= 4)
        return;
    if (parts & LONG)
        put(128 + 2 * n, set);
    if (parts & SHORT)
        put(129 + 2 * n, set);
    if (parts & SIGNS_ZEROS) {
        put(136 + 2 * n, set);
        put(137 + 2 * n, set);
    }
}

/* The place of the byte at a 13-bit address. */
static uint32_t byte_place(uint32_t addr, uint32_t code)
{
    uint32_t k = code == 0 ? addr / 32 % 8 : addr / (16u << code);
    uint32_t bank = (addr % 16 + k) % 16, cell = addr / 32, hilo = addr / 16 % 2;

    return 144 + bank * 512 + cell * 2 + hilo;
}

/* Only ld and st, from 0xd8 on, have a UIMM. */
static void put_bytes(struct triple t, uint32_t parts, uint32_t base, int set)
{
    uint32_t uimm = field(t.word, 24, 8) >= 0xd8 ? field(t.word, 3, 11) : 0;
    uint32_t code = field(base, 30, 2), addr = (field(base, 0, 16) | uimm) % 0x2000;
    uint32_t stride = 0x10u << code, tall = 16 * stride;

    if (parts & ROW)
        for (uint32_t i = 0; i < 16; i++)
            put(byte_place(addr / 16 * 16 + i, code), set);
    if (parts & COLUMN)
        for (uint32_t i = 0; i < 16; i++)
            put(byte_place(addr / tall * tall + i * stride + addr % stride, code), set);
    if (parts & SCALAR)
        for (uint32_t i = 0; i < 4; i++)
            put(byte_place(addr / 4 * 4 + i, code), set);
}

static void read_here(struct triple t)
{
    struct shape shape = shapes[field(t.word, 24, 8)];

    put_registers(t, shape.reads, READ_HERE);
    put_flags(t, shape.reads, READ_HERE);
    put_bytes(t, shape.reads, a[field(t.word, 14, 5)], READ_HERE);
    put_registers(t, shape.writes, WRITTEN_HERE);
    put_flags(t, shape.writes, WRITTEN_HERE);
    put_bytes(t, shape.writes, a[field(t.word, 19, 5)], WRITTEN_HERE);
}

/* ---- The other's ---- */

/* Whether it answers 0 with counts that the buffer can hold. */
static int read_there(struct triple t)
{
    uint32_t buffer[SECOND_PLACES], reads, writes;
    uint32_t answer = second_places(t.word, t.side, t.mask, ds, sizeof ds, a, SECOND_A,
                                    r, SECOND_R, c, SECOND_C, vc, SECOND_VC, v, sizeof v,
                                    buffer, SECOND_PLACES, &reads, &writes);

    if (answer != 0 || reads > SECOND_PLACES || writes > SECOND_PLACES - reads) {
        printf("reading: answer %u, counts %u and %u\n", answer, reads, writes);
        return 0;
    }
    for (uint32_t i = 0; i < reads + writes; i++)
        put(buffer[i], i < reads ? READ_THERE : WRITTEN_THERE);
    return 1;
}

/* ---- The comparison ---- */

static int same_sets(void)
{
    for (int i = 0; i < nfound; i++)
        if (sets[found[i]] % 4 != sets[found[i]] / 4)
            return 0;
    return 1;
}

static void print_set(const char *name, int set)
{
    printf("%s", name);
    for (int i = 0; i <= END; i++)
        if (sets[i] & set)
            printf(" %d", i);
}

static void print_difference(struct triple t)
{
    printf("reading: a difference at 0x%08x %u 0x%05x, opcode 0x%02x, $a[SRC1] 0x%08x, "
           "$a[DST] 0x%08x\n", t.word, t.side, t.mask, field(t.word, 24, 8),
           a[field(t.word, 14, 5)], a[field(t.word, 19, 5)]);
    print_set("reading.c: reads", READ_HERE);
    print_set("; writes", WRITTEN_HERE);
    print_set("\nplaces.c:  reads", READ_THERE);
    print_set("; writes", WRITTEN_THERE);
    printf("\n");
}

static int agrees(struct triple t)
{
    int ok;

    empty_sets();
    read_here(t);
    ok = read_there(t) && same_sets();
    if (!ok)
        print_difference(t);
    return ok;
}

/* ---- The triples ---- */

/* Marsaglia's xorshift of 64 bits; the high half is drawn. */
static uint32_t draw(void)
{
    static uint64_t x = 0x9e3779b97f4a7c15;

    x ^= x << 13;
    x ^= x >> 7;
    x ^= x << 17;
    return (uint32_t)(x >> 32);
}

static void draw_words(uint32_t *words, int n)
{
    for (int i = 0; i < n; i++)
        words[i] = draw();
}

static void draw_bytes(uint8_t *bytes, int n)
{
    for (int i = 0; i < n; i++)
        bytes[i] = (uint8_t)draw();
}

static struct triple draw_triple(uint32_t op)
{
    struct triple t;

    draw_words(a, SECOND_A);
    t.word = op << 24 | draw() % 0x1000000;
    t.side = draw() % 32;
    t.mask = draw() % 0x20000;
    return t;
}

int main(void)
{
    for (size_t n = 0; n < sizeof documented; n++) {
        draw_bytes(ds, SECOND_DS);
        draw_bytes(v, SECOND_V);
        draw_words(r, SECOND_R);
        draw_words(c, SECOND_C);
        draw_words(vc, SECOND_VC);
        for (int i = 0; i < TRIPLES; i++)
            if (!agrees(draw_triple(documented[n])))
                return 1;
    }
    printf("reading: %zu opcodes, %zu triples, no difference\n", sizeof documented, sizeof documented * TRIPLES);
    return 0;
}
