/* selftest.c - checks the second simulator against document 01's ten examples, cases
 * of vclip made by hand, the four lines of the lab program, and, for every address and
 * code, against the address lists written out and counted; and the places and
 * exchanges against cases made by hand from the table; and the clipped components, in
 * selftest_clipped.c, the lines of names, in selftest_lines.c, and lists in parts, in
 * selftest_parts.c. Prints nothing and exits 0 if all is well. */
#include "selftest.h"

#include "vp1_second.h"

#include <stdio.h>
#include <string.h>

static uint8_t ds[SECOND_DS], v[SECOND_V];
static uint32_t a[SECOND_A], r[SECOND_R], c[SECOND_C], vc[SECOND_VC];
static uint64_t accesses, clipped;
static int failures;

#define CHECK(cond) check((cond), #cond, __LINE__)

/* A few failures tell enough; the loops below could print thousands. */
static void check(int ok, const char *text, int line)
{
    if (ok)
        return;
    if (failures++ < 10)
        fprintf(stderr, "selftest: line %d: %s\n", line, text);
}

static uint32_t step(uint32_t word, uint32_t side, uint32_t mask)
{
    return second_step(word, side, mask, ds, sizeof ds, a, SECOND_A, r, SECOND_R,
                       c, SECOND_C, vc, SECOND_VC, v, sizeof v, &accesses, &clipped);
}

static void clear(void)
{
    memset(ds, 0, sizeof ds);
    memset(a, 0, sizeof a);
    memset(r, 0, sizeof r);
    memset(c, 0, sizeof c);
    memset(vc, 0, sizeof vc);
    memset(v, 0, sizeof v);
}

/* A word with its three five-bit fields from bit 9 up, and its bits 0 to 8. */
static uint32_t word(uint32_t op, uint32_t dst, uint32_t src1, uint32_t src2, uint32_t low)
{
    return op << 24 | dst << 19 | src1 << 14 | src2 << 9 | low;
}

/* ---- The address lists, as the chapter's steps make them ---- */

struct place { uint32_t bank, cell, hilo; };

static struct place xlat(uint32_t addr, uint32_t code)
{
    struct place p = { addr & 0xf, addr >> 5 & 0xff, addr >> 4 & 1 };

    if (code == 0)
        p.bank += (addr >> 5) & 7;
    else if (code == 1)
        p.bank += addr / 32;
    else if (code == 2)
        p.bank += addr / 64;
    else
        p.bank += addr / 128;
    p.bank &= 0xf;
    return p;
}

enum way { HORIZONTAL, VERTICAL, SCALAR };

/* Writes the list and returns its length. */
static int address_list(enum way way, uint32_t addr, uint32_t code, struct place list[16])
{
    int n = way == SCALAR ? 4 : 16;

    if (way == HORIZONTAL)
        addr &= 0x1ff0;
    else if (way == SCALAR)
        addr &= 0x1ffc;
    else
        addr &= 0x1fff & ~(0xfu << (4 + code));
    for (uint32_t i = 0; i < (uint32_t)n; i++)
        list[i] = xlat(addr | (way == VERTICAL ? i << (4 + code) : i), code);
    return n;
}

static size_t offset(struct place p) { return p.bank * 512 + p.cell * 2 + p.hilo; }

static uint64_t distinct_pairs(const struct place *list, int n)
{
    uint64_t count = 0;

    for (int i = 0; i < n; i++) {
        int j = 0;

        while (j < i && (list[j].bank != list[i].bank || list[j].cell != list[i].cell))
            j++;
        count += j == i;
    }
    return count;
}

/* ---- Every address and code ---- */

/* Byte i of what was loaded into register 1. */
static uint32_t loaded(enum way way, int i)
{
    return way == SCALAR ? r[1] >> 8 * i & 0xff : v[16 + i];
}

/* Loads with $a2 as the base, where each byte of the store holds the low or the
 * high byte of its own offset: together they show which byte was loaded. */
static void every_load(enum way way, uint32_t shift)
{
    struct place list[16];

    clear();
    for (uint32_t i = 0; i < SECOND_DS; i++)
        ds[i] = (uint8_t)(i >> shift);
    for (uint32_t code = 0; code < 4; code++)
        for (uint32_t addr = 0; addr < 0x10000; addr++) {
            int n = address_list(way, addr, code, list);

            a[2] = addr | code << 30;
            CHECK(step(word(0xd8 + (uint32_t)way, 1, 2, 0, 7), 0, 0) == 0);
            CHECK(accesses == distinct_pairs(list, n));
            for (int i = 0; i < n; i++)
                CHECK(loaded(way, i) == (offset(list[i]) >> shift & 0xff));
        }
}

/* Stores of register 1 with $a2 as the base into a store of zeros, which then
 * must hold those bytes and no others. */
static void every_store(enum way way)
{
    static uint8_t expected[SECOND_DS];
    struct place list[16];

    clear();
    for (int i = 0; i < 16; i++)
        v[16 + i] = (uint8_t)(0xa1 + i);
    r[1] = 0xa4a3a2a1;
    for (uint32_t code = 0; code < 4; code++)
        for (uint32_t addr = 0; addr < 0x2000; addr++) {
            int n = address_list(way, addr, code, list);

            for (int i = 0; i < n; i++)
                expected[offset(list[i])] = (uint8_t)(0xa1 + i);
            a[2] = addr | code << 30;
            CHECK(step(word(0xdc + (uint32_t)way, 2, 1, 0, 7), 0, 0) == 0);
            CHECK(accesses == distinct_pairs(list, n));
            CHECK(memcmp(ds, expected, sizeof ds) == 0);
            for (int i = 0; i < n; i++)
                ds[offset(list[i])] = expected[offset(list[i])] = 0;
        }
}

static void translation_is_one_to_one(void)
{
    for (uint32_t code = 0; code < 4; code++) {
        uint8_t seen[SECOND_DS] = { 0 };

        for (uint32_t addr = 0; addr < 0x2000; addr++)
            CHECK(seen[offset(xlat(addr, code))]++ == 0);
    }
}

/* The cell accesses of lda and sta, with either increment, are those of ld and st. */
static void counts_of_the_adding_forms(void)
{
    static const uint32_t ops[4] = { 0xc0, 0xc4, 0xd0, 0xd4 };
    struct place list[16];

    clear();
    for (uint32_t k = 0; k < 12; k++)
        for (uint32_t code = 0; code < 4; code++)
            for (uint32_t addr = 0; addr < 0x2000; addr++) {
                int n = address_list((enum way)(k % 3), addr, code, list);

                a[2] = addr | code << 30;
                CHECK(step(word(ops[k / 3] + k % 3, 2, 2, 0, 7), 0, 0) == 0);
                CHECK(accesses == distinct_pairs(list, n));
            }
}

/* ---- What the store shows of a byte's place ---- */

static void show_banks(void)
{
    for (int i = 0; i < SECOND_DS; i++)
        ds[i] = (uint8_t)(i / 512);
}

static void show_cells(void)
{
    for (int i = 0; i < SECOND_DS; i++)
        ds[i] = (uint8_t)(i / 2 % 256);
}

static void show_hilo(void)
{
    for (int i = 0; i < SECOND_DS; i++)
        ds[i] = (uint8_t)(i % 2);
}

/* The byte at the address, of the word that a scalar load reads there. */
static uint32_t byte_at(uint32_t addr, uint32_t code)
{
    a[2] = addr | code << 30;
    CHECK(step(word(0xda, 1, 2, 0, 7), 0, 0) == 0);
    return r[1] >> 8 * (addr % 4) & 0xff;
}

static void one_translation(uint32_t addr, uint32_t cell, uint32_t hilo,
                            const uint32_t banks[4])
{
    clear();
    for (uint32_t code = 0; code < 4; code++) {
        show_banks();
        CHECK(byte_at(addr, code) == banks[code]);
        show_cells();
        CHECK(byte_at(addr, code) == cell);
        show_hilo();
        CHECK(byte_at(addr, code) == hilo);
    }
}

/* ---- The ten examples ---- */

static void examples_1_to_3(void)
{
    static const uint32_t one[4] = { 4, 12, 7, 5 }, two[4] = { 6, 14, 14, 14 };

    one_translation(0x0123, 9, 0, one);
    one_translation(0x1fff, 255, 1, two);

    clear();
    show_banks();
    a[2] = 0x0005;
    CHECK(step(word(0xd9, 1, 2, 0, 7), 0, 0) == 0);
    for (int i = 0; i < 16; i++)
        CHECK(v[16 + i] == 5 + i / 2);
    CHECK(accesses == 8);
}

static void examples_4_and_5(void)
{
    clear();
    a[1] = 0x0010ffff;
    a[2] = 2;
    c[0] = 0xffffffff;
    CHECK(step(word(0xca, 1, 0, 0, 0), 2, 0) == 0);
    CHECK(a[1] == 0x00100001);
    CHECK(c[0] == 0xfffffbff);

    clear();
    for (int i = 0; i < 16; i++)
        ds[i * 512 + 1] = (uint8_t)(0x40 + i); /* what address 0x10 + i reads, code 0 */
    a[2] = 0x00200010;
    CHECK(step(word(0xd8, 1, 2, 0, 0x10 << 3), 0, 0) == 0);
    for (int i = 0; i < 16; i++)
        CHECK(v[16 + i] == 0x40 + i);
    CHECK(c[0] == 0x400);
}

/* One vector instruction on sixteen equal components: $v1 by $v2 into $v3, flags
 * into $vc0, which must come out alike for all sixteen; and whether they are out of
 * the range that they are clipped to. */
static void lanes(uint32_t op, uint32_t s1, uint32_t s2, uint32_t res,
                  uint32_t sign, uint32_t zero, uint32_t out)
{
    clear();
    memset(v + 16, (int)s1, 16);
    memset(v + 32, (int)s2, 16);
    CHECK(step(word(op, 3, 1, 2, 0), 0, 0) == 0);
    for (int i = 0; i < 16; i++)
        CHECK(v[48 + i] == res);
    CHECK(vc[0] == sign * 0xffff + zero * 0xffff0000);
    CHECK(clipped == 16 * out && accesses == 0);
}

static void examples_6_to_8(void)
{
    lanes(0x8c, 0x64, 0x64, 0x7f, 0, 0, 1); /* the 16 is document 02's, wish 4 */
    lanes(0x8b, 0x80, 0, 0x7f, 0, 0, 1);
    lanes(0x9d, 0, 1, 0, 1, 1, 1);
    lanes(0x9e, 0x80, 0x0f, 0, 0, 0, 0);
    lanes(0x8e, 0x80, 7, 0xff, 1, 0, 0);
}

static void example_9(void)
{
    clear();
    memset(v + 16, 0x10, 16);
    for (int i = 0; i < 8; i++) {
        v[32 + 2 * i] = 0xf0;
        v[32 + 2 * i + 1] = 0x01;
    }
    memset(v + 48, 0xaa, 16);
    /* Both halves come from $v2: SRC3 is bits 4 to 8. */
    CHECK(step(word(0x9f, 3, 1, 2, 2 << 4), 0, 0) == 0);
    for (int i = 0; i < 16; i++)
        CHECK(v[48 + i] == 0);
    CHECK(vc[0] == 0xffff0000);
    CHECK(clipped == 0);
}

static void example_10(void)
{
    clear();
    a[3] = 0xabcd5678;
    CHECK(step(0xcc181234, 0, 0) == 0);
    CHECK(a[3] == 0xabcd1234);
    CHECK(step(0xc3000000, 0, 0) == 2);
    CHECK(step(0x7f000000, 0, 0) == 1);
    CHECK(step(0xe0000000, 0, 0) == 1);
}

/* ---- The ends of vclip's range ---- */

/* x clipped to the ends y and z; then the sign, set where x is at or beyond an end or
 * y >= z, and the zero. The first row is document 02's example, wish 1. */
static const struct clip { int8_t x, y, z, res; uint8_t sign, zero; } clips[32] = {
    { 5, 5, 9, 5, 1, 0 },             { 4, 5, 9, 5, 1, 0 },
    { 6, 5, 9, 6, 0, 0 },             { 7, 5, 9, 7, 0, 0 },
    { 8, 5, 9, 8, 0, 0 },             { 9, 5, 9, 9, 1, 0 },
    { 10, 5, 9, 9, 1, 0 },            { -128, 5, 9, 5, 1, 0 },
    { 4, 9, 5, 5, 1, 0 },             { 5, 9, 5, 5, 1, 0 },
    { 6, 9, 5, 6, 1, 0 },             { 7, 9, 5, 7, 1, 0 },
    { 8, 9, 5, 8, 1, 0 },             { 9, 9, 5, 9, 1, 0 },
    { 10, 9, 5, 9, 1, 0 },            { 6, 7, 7, 7, 1, 0 },
    { 7, 7, 7, 7, 1, 0 },             { 8, 7, 7, 7, 1, 0 },
    { -10, -9, -5, -9, 1, 0 },        { -9, -9, -5, -9, 1, 0 },
    { -8, -9, -5, -8, 0, 0 },         { -6, -9, -5, -6, 0, 0 },
    { -5, -9, -5, -5, 1, 0 },         { -4, -9, -5, -5, 1, 0 },
    { -128, -128, 127, -128, 1, 0 },  { -127, -128, 127, -127, 0, 0 },
    { 126, -128, 127, 126, 0, 0 },    { 127, -128, 127, 127, 1, 0 },
    { 0, -128, 127, 0, 0, 1 },        { 0, 127, -128, 0, 1, 1 },
    { -3, 0, 9, 0, 1, 1 },            { 0, -9, 0, 0, 1, 1 },
};

/* Sixteen rows into $v1 and its ends $v2 and $v3; returns the flags that they ask for. */
static uint32_t load_clips(const struct clip *rows)
{
    uint32_t flags = 0;

    for (int i = 0; i < 16; i++) {
        v[16 + i] = (uint8_t)rows[i].x;
        v[32 + i] = (uint8_t)rows[i].y;
        v[48 + i] = (uint8_t)rows[i].z;
        flags |= (uint32_t)rows[i].sign << i | (uint32_t)rows[i].zero << (16 + i);
    }
    return flags;
}

/* Sixteen rows in one step, into $v4: the flags go into the $vc of the field, or into
 * none. */
static void sixteen_clips(const struct clip *rows, uint32_t field)
{
    uint32_t flags;

    clear();
    memset(vc, 0x5a, sizeof vc);
    flags = load_clips(rows);
    CHECK(step(word(0xa4, 4, 1, 2, 3 << 4 | field), 0, 0) == 0);
    for (int i = 0; i < 16; i++)
        CHECK(v[64 + i] == (uint8_t)rows[i].res);
    for (uint32_t n = 0; n < 4; n++)
        CHECK(vc[n] == (n == field ? flags : 0x5a5a5a5a));
}

static void clips_at_both_ends(void)
{
    for (uint32_t field = 0; field < 8; field++) {
        sixteen_clips(clips, field);
        sixteen_clips(clips + 16, field);
    }
}

/* ---- The lab program's lines ---- */

static void lab_lines(void)
{
    static const char *const lines[4] = {
        "0x10: 0 0 1 1 2 2 3 3 4 4 5 5 6 6 7 7",
        "0x20: 0 1 2 3 4 5 6 7 8 9 10 11 12 13 14 15",
        "0x40: 0 1 2 3 4 5 6 7 8 9 10 11 12 13 14 15",
        "0x80: 0 1 2 3 4 5 6 7 8 9 10 11 12 13 14 15",
    };

    for (uint32_t code = 0; code < 4; code++) {
        char line[80];
        int n = sprintf(line, "0x%x:", 0x10u << code);

        clear();
        show_banks();
        a[2] = code << 30;
        CHECK(step(word(0xd9, 1, 2, 0, 7), 0, 0) == 0);
        for (int i = 0; i < 16; i++)
            n += sprintf(line + n, " %d", v[16 + i]);
        CHECK(strcmp(line, lines[code]) == 0);
    }
}

/* ---- The places of one instruction ----
 *
 * The numbers are written out: 2n and 2n + 1 the halves of $a[n], 64 + n $r[n],
 * 96 + n $v[n], 128 + 2n and 129 + 2n the flags of $c[n], 136 + 2n and 137 + 2n
 * those of $vc[n], 144 + i byte i of the store. */

enum { KEPT = 0xabcd }; /* what the buffer holds where nothing is written */

static uint32_t buffer[SECOND_PLACES + 2], reads, writes;

static uint32_t places(uint32_t w, uint32_t side, uint32_t mask, size_t nbuffer)
{
    for (int i = 0; i < SECOND_PLACES + 2; i++)
        buffer[i] = KEPT;
    return second_places(w, side, mask, ds, sizeof ds, a, SECOND_A, r, SECOND_R,
                         c, SECOND_C, vc, SECOND_VC, v, sizeof v,
                         buffer, nbuffer, &reads, &writes);
}

static void kept_from(uint32_t n, int line)
{
    for (uint32_t i = n; i < SECOND_PLACES + 2; i++)
        check(buffer[i] == KEPT, "the rest of the buffer", line);
}

static void expect(uint32_t w, uint32_t side, uint32_t mask, uint32_t nreads,
                   const uint32_t *list, uint32_t n, int line)
{
    check(places(w, side, mask, SECOND_PLACES) == 0, "places are answered", line);
    check(reads == nreads && writes == n - nreads, "the counts", line);
    for (uint32_t i = 0; i < n; i++)
        check(buffer[i] == list[i], "the numbers", line);
    kept_from(n, line);
}

static void refused(uint32_t w, uint32_t side, uint32_t mask, size_t nbuffer,
                    uint32_t answer, int line)
{
    check(places(w, side, mask, nbuffer) == answer, "the refusal", line);
    check(reads == 0 && writes == 0, "the counts of a refusal", line);
    kept_from(0, line);
}

/* The list: those read, nreads of them, and those written. */
#define LIST(...) ((const uint32_t[]){ __VA_ARGS__ })
#define PLACES(w, side, mask, nreads, ...)                         \
    expect((w), (side), (mask), (nreads), LIST(__VA_ARGS__),       \
           sizeof LIST(__VA_ARGS__) / sizeof(uint32_t), __LINE__)
#define NO_PLACES(w) expect((w), 0, 0, 0, NULL, 0, __LINE__)
#define REFUSED(w, side, mask, nbuffer, answer) \
    refused((w), (side), (mask), (nbuffer), (answer), __LINE__)

static void places_of_address_instructions(void)
{
    clear();
    PLACES(0xcc181234, 99, 99, 0, 6);
    PLACES(0xcd181234, 99, 99, 0, 7);
    PLACES(word(0xcb, 1, 2, 0, 3), 4, 0, 4, 4, 5, 8, 9, 2, 3, 134);
    PLACES(word(0xcb, 1, 2, 0, 4), 2, 0, 4, 4, 5, 4, 5, 2, 3);
    PLACES(word(0xd3, 31, 30, 29, 0), 99, 0, 4, 60, 61, 58, 59, 62, 63, 128);
    PLACES(word(0xca, 5, 9, 9, 1), 5, 0, 3, 10, 11, 10, 10, 131);
    PLACES(word(0xca, 5, 9, 9, 7), 31, 0, 3, 10, 11, 62, 10);
    NO_PLACES(word(0xdf, 1, 2, 3, 0));
}

/* $a2 is the base, the data register is 7. */
static void places_of_accesses(void)
{
    clear();
    a[2] = 0x00000030; /* also with UIMM 0x20: cell 1, the high half, bank 1 on */
    PLACES(word(0xd8, 7, 2, 0, 0x20 << 3 | 2), 99, 99, 18, 4, 5,
           659, 1171, 1683, 2195, 2707, 3219, 3731, 4243,
           4755, 5267, 5779, 6291, 6803, 7315, 7827, 147, 103, 133);
    PLACES(word(0xdc, 2, 7, 0, 0x20 << 3 | 2), 99, 99, 3, 4, 5, 103,
           659, 1171, 1683, 2195, 2707, 3219, 3731, 4243,
           4755, 5267, 5779, 6291, 6803, 7315, 7827, 147, 133);

    /* The increment, here 0x40, does not change the address. */
    PLACES(word(0xd0, 7, 2, 1, 7), 99, 99, 18, 4, 5,
           659, 1171, 1683, 2195, 2707, 3219, 3731, 4243,
           4755, 5267, 5779, 6291, 6803, 7315, 7827, 147, 103, 4);

    a[2] = 0x00000005; /* the paper's third example */
    PLACES(word(0xd9, 7, 2, 0, 7), 99, 99, 18, 4, 5,
           2704, 2705, 3218, 3219, 3732, 3733, 4246, 4247,
           4760, 4761, 5274, 5275, 5788, 5789, 6302, 6303, 103);
    PLACES(word(0xdd, 2, 7, 0, 1), 99, 99, 3, 4, 5, 103,
           2704, 2705, 3218, 3219, 3732, 3733, 4246, 4247,
           4760, 4761, 5274, 5275, 5788, 5789, 6302, 6303, 131);
    PLACES(word(0xc5, 2, 7, 0, 0), 2, 99, 4, 4, 5, 4, 103,
           2704, 2705, 3218, 3219, 3732, 3733, 4246, 4247,
           4760, 4761, 5274, 5275, 5788, 5789, 6302, 6303, 4, 129);
    PLACES(word(0xc1, 7, 2, 0, 0), 31, 99, 19, 4, 5, 62,
           2704, 2705, 3218, 3219, 3732, 3733, 4246, 4247,
           4760, 4761, 5274, 5275, 5788, 5789, 6302, 6303, 103, 4, 129);

    a[2] = 0x80000123; /* code 2: 0x120 is in bank 4, cell 9, the low half */
    PLACES(word(0xda, 7, 2, 0, 7), 99, 99, 6, 4, 5, 2210, 2722, 3234, 3746, 71);
    PLACES(word(0xde, 2, 7, 0, 3), 99, 99, 3, 4, 5, 71, 2210, 2722, 3234, 3746, 135);
    PLACES(word(0xc2, 7, 2, 0, 3), 1, 99, 7, 4, 5, 2, 2210, 2722, 3234, 3746, 71, 4, 135);
    PLACES(word(0xc6, 2, 7, 0, 7), 1, 99, 4, 4, 5, 2, 71, 2210, 2722, 3234, 3746, 4);
    PLACES(word(0xd2, 7, 2, 0, 3), 99, 99, 6, 4, 5, 2210, 2722, 3234, 3746, 71, 4, 135);
    PLACES(word(0xd6, 2, 7, 0, 7), 99, 99, 3, 4, 5, 71, 2210, 2722, 3234, 3746, 4);
}

static void places_of_vector_instructions(void)
{
    clear();
    PLACES(word(0x88, 1, 2, 3, 0), 99, 0x20000, 2, 98, 99, 97, 136, 137);
    PLACES(word(0xa8, 1, 2, 3, 0), 99, 0x20000, 1, 98, 97, 136, 137);
    PLACES(word(0x8d, 1, 1, 1, 4), 0, 0, 2, 97, 97, 97);
    PLACES(word(0xbe, 31, 0, 3, 3), 0, 0, 1, 96, 127, 142, 143);
    PLACES(word(0x8a, 1, 2, 3, 1), 0, 0, 1, 98, 97, 138, 139);
    PLACES(word(0xaf, 1, 2, 3, 1), 0, 0, 1, 98, 97, 138, 139);
    PLACES(word(0xba, 1, 2, 3, 7), 0, 0, 1, 98, 97);
    PLACES(word(0xa4, 1, 2, 3, 4 << 4 | 3), 0, 0, 3, 98, 99, 100, 97, 142, 143);
    PLACES(word(0x9f, 1, 2, 3, 4 << 4 | 3), 0, 0, 3, 98, 99, 100, 97, 142, 143);
    PLACES(word(0x94, 1, 2, 3, 2), 0, 0, 2, 98, 99, 97, 140, 141);
    PLACES(word(0xa5, 1, 2, 3, 2), 0, 0, 2, 98, 99, 97, 140, 141);
    PLACES(word(0x9b, 1, 2, 3, 4 << 4), 0, 0, 3, 98, 99, 100, 97);
    PLACES(word(0xad, 1, 2, 3, 0), 0, 0, 0, 97, 136, 137);
    PLACES(word(0xad, 1, 2, 3, 5), 0, 0, 0, 97);
    PLACES(word(0xbb, 1, 2, 3, 0), 0, 0, 8, 136, 137, 138, 139, 140, 141, 142, 143, 97);
    NO_PLACES(word(0xbf, 1, 2, 3, 0));

    /* vcmpad: $v2 and $v3, then $v3 twice; the input is $vc1's signs. */
    PLACES(word(0x8f, 1, 2, 4, 1), 99, 0xffff, 4, 98, 99, 100, 138, 138, 139);
    PLACES(word(0x8f, 1, 3, 4, 1), 99, 0x10000, 3, 99, 99, 100, 138, 139);
    PLACES(word(0x8f, 1, 2, 4, 5), 99, 0, 4, 98, 99, 100, 138);
    PLACES(word(0x8f, 1, 2, 4, 5), 99, 0x1ffff, 3, 98, 99, 100);
}

/* How many places the opcodes 0x88 to 0x8f, 0x98 to 0x9f and so on read, a digit each. */
static void reads_of_every_vector_opcode(void)
{
    static const char *const rows[4] = { "22112224", "22132223", "11111011", "11181110" };

    clear();
    for (uint32_t i = 0; i < 32; i++) {
        CHECK(places((0x88 + i / 8 * 16 + i % 8) << 24, 0, 0, SECOND_PLACES) == 0);
        CHECK(reads == (uint32_t)(rows[i / 8][i % 8] - '0'));
    }
}

/* Each buffer that is too short is refused before the opcode is looked at. */
static void refusals_of_places(void)
{
    uint32_t setlo = 0xcc181234, cmpad = word(0x8f, 1, 2, 3, 0);

    clear();
    REFUSED(setlo, 0, 0, SECOND_PLACES - 1, 5);
    REFUSED(setlo, 0, 0, 0, 5);
    REFUSED(0x7f000000, 0, 0, SECOND_PLACES - 1, 5);
    REFUSED(0x7f000000, 32, 0x20000, SECOND_PLACES, 1);
    REFUSED(0xe0000000, 32, 0x20000, SECOND_PLACES, 1);
    REFUSED(0x80000000, 32, 0x20000, SECOND_PLACES, 2);
    REFUSED(0xdb000000, 32, 0x20000, SECOND_PLACES, 2);
    REFUSED(word(0xc0, 1, 2, 3, 0), 32, 0, SECOND_PLACES, 3);
    REFUSED(word(0xcb, 1, 2, 3, 0), 0xffffffff, 0, SECOND_PLACES, 3);
    REFUSED(cmpad, 32, 0x20000, SECOND_PLACES, 4);
    REFUSED(cmpad | 7, 32, 0xffffffff, SECOND_PLACES, 4);
    CHECK(places(setlo, 32, 0x20000, SECOND_PLACES + 2) == 0 && writes == 1);
    for (int i = 0; i < 12; i++) {
        size_t n[6] = { SECOND_DS, SECOND_A, SECOND_R, SECOND_C, SECOND_VC, SECOND_V };

        n[i / 2] += i % 2 ? 1 : (size_t)-1;
        CHECK(second_places(setlo, 0, 0, ds, n[0], a, n[1], r, n[2], c, n[3], vc, n[4],
                            v, n[5], buffer, SECOND_PLACES, &reads, &writes) == 5);
    }
}

/* Which opcodes are refused, and with what: as one step does it. */
static void places_refuse_as_a_step_does(void)
{
    static const uint32_t sides[3] = { 0, 31, 32 }, masks[3] = { 0, 0x1ffff, 0x20000 };

    clear();
    for (uint32_t op = 0; op < 256; op++)
        for (int i = 0; i < 9; i++) {
            uint32_t side = sides[i % 3], mask = masks[i / 3];

            CHECK(places(op << 24 | 7, side, mask, SECOND_PLACES) ==
                  step(op << 24 | 7, side, mask));
        }
}

/* The bytes of every address and code, with $a2 as the base. */
static void every_byte_place(enum way way)
{
    struct place list[16];

    clear();
    for (uint32_t code = 0; code < 4; code++)
        for (uint32_t addr = 0; addr < 0x10000; addr++) {
            int n = address_list(way, addr, code, list);

            a[2] = addr | code << 30;
            CHECK(places(word(0xd8 + (uint32_t)way, 1, 2, 0, 7), 0, 0, SECOND_PLACES) == 0);
            CHECK(reads == 2 + (uint32_t)n && writes == 1);
            for (int i = 0; i < n; i++)
                CHECK(buffer[2 + i] == 144 + offset(list[i]));
        }
}

/* ---- Two instructions ---- */

struct triple { uint32_t word, side, mask; };

static uint32_t clash, place, writer;

static uint32_t may_swap(struct triple t1, struct triple t2)
{
    return second_may_swap(t1.word, t1.side, t1.mask, t2.word, t2.side, t2.mask,
                           ds, sizeof ds, a, SECOND_A, r, SECOND_R, c, SECOND_C,
                           vc, SECOND_VC, v, sizeof v, &clash, &place, &writer);
}

static struct triple by(uint32_t w, uint32_t side, uint32_t mask)
{
    return (struct triple){ w, side, mask };
}

static struct triple plain(uint32_t w) { return by(w, 0, 0); }

static void verdict(struct triple t1, struct triple t2, uint32_t answer,
                    uint32_t expected_place, uint32_t expected_writer, int line)
{
    check(may_swap(t1, t2) == answer, "the answer", line);
    check(clash == (expected_writer != 0), "whether they clash", line);
    check(place == expected_place && writer == expected_writer, "where they clash", line);
}

#define FREE(t1, t2) verdict((t1), (t2), 0, 0, 0, __LINE__)
#define CLASH(t1, t2, place, writer) verdict((t1), (t2), 0, (place), (writer), __LINE__)
#define NO_VERDICT(t1, t2, answer) verdict((t1), (t2), (answer), 0, 0, __LINE__)

static void exchanges_of_address_registers(void)
{
    struct triple setlo = plain(0xcc181234), sethi = plain(0xcd181234); /* of $a3 */
    struct triple aadd = by(word(0xca, 3, 0, 0, 0), 4, 0);
    struct triple add = by(word(0xcb, 1, 2, 0, 0), 3, 0);

    clear();
    FREE(setlo, sethi);
    CLASH(setlo, setlo, 6, 1);
    CLASH(sethi, sethi, 7, 1);
    CLASH(sethi, aadd, 7, 1);
    CLASH(aadd, sethi, 7, 2);
    CLASH(aadd, setlo, 6, 1);
    CLASH(add, setlo, 6, 2);
    CLASH(add, sethi, 7, 2);

    /* SRC2S gives only its low half to aadd, and both to add. */
    FREE(by(word(0xca, 5, 0, 0, 0), 3, 0), sethi);
    CLASH(by(word(0xca, 5, 0, 0, 0), 3, 0), setlo, 6, 2);

    /* The long pair and the short bit of one $c are two places. */
    FREE(add, by(word(0xca, 5, 0, 0, 0), 6, 0));
    CLASH(add, by(word(0xcb, 5, 6, 0, 0), 7, 0), 128, 1);
    CLASH(by(word(0xca, 5, 0, 0, 1), 6, 0), by(word(0xca, 7, 0, 0, 1), 6, 0), 131, 1);
    FREE(by(word(0xca, 5, 0, 0, 4), 6, 0), by(word(0xca, 7, 0, 0, 4), 6, 0));

    /* The first of several: $a3's low half is in the list before its high half, and
     * what the first instruction writes comes before what the second does. */
    CLASH(by(word(0xcb, 3, 2, 0, 0), 1, 0), by(word(0xcb, 2, 3, 0, 0), 1, 0), 6, 1);
    FREE(plain(0xdf000000), plain(0xdf000000));
}

static void exchanges_of_vector_registers(void)
{
    struct triple vmov = plain(word(0xad, 3, 0, 0, 2)), from_vc = plain(word(0xbb, 1, 0, 0, 0));
    uint32_t cmpad = word(0x8f, 0, 4, 6, 6); /* writes nothing; its input is $vc2 */

    clear();
    CLASH(vmov, vmov, 99, 1);
    CLASH(vmov, plain(word(0x88, 1, 2, 3, 7)), 99, 1);
    CLASH(plain(word(0x88, 1, 2, 3, 7)), vmov, 99, 2);
    FREE(plain(word(0xa8, 1, 2, 3, 7)), vmov); /* these bits are BIMM's */
    CLASH(plain(word(0x9b, 1, 2, 2, 3 << 4)), vmov, 99, 2);
    CLASH(plain(word(0xad, 5, 0, 0, 7)), plain(cmpad), 101, 1);

    CLASH(vmov, plain(word(0xad, 4, 0, 0, 2)), 140, 1);
    CLASH(vmov, from_vc, 140, 1);
    CLASH(from_vc, vmov, 140, 2);
    FREE(vmov, plain(word(0xad, 4, 0, 0, 3)));
    CLASH(vmov, plain(cmpad), 140, 1);
    CLASH(plain(cmpad), vmov, 140, 2);
    FREE(by(cmpad, 0, 0x10000), vmov);
    FREE(plain(cmpad), plain(cmpad));
}

/* $a1 and $a2 are the bases; flags are written by none. */
static void exchanges_of_accesses(void)
{
    uint32_t lds = word(0xda, 7, 1, 0, 7), sts = word(0xde, 2, 8, 0, 7);
    struct triple ldvh = plain(word(0xd8, 7, 1, 0, 7)), stvv = plain(word(0xdd, 2, 8, 0, 7));

    clear();
    CLASH(plain(sts), plain(lds), 144, 1);
    CLASH(plain(lds), plain(sts), 144, 2);
    CLASH(plain(sts), plain(sts), 144, 1);
    FREE(plain(lds), plain(word(0xda, 8, 2, 0, 7)));
    CLASH(plain(lds), plain(lds), 71, 1);
    CLASH(plain(lds), plain(word(0xde, 2, 7, 0, 4 << 3 | 7)), 71, 1);

    /* ldavh: its register, then its base. */
    CLASH(plain(word(0xd0, 7, 1, 0, 7)), ldvh, 103, 1);
    CLASH(plain(word(0xd0, 6, 1, 0, 7)), ldvh, 2, 1);
    CLASH(plain(lds), plain(word(0xd0, 6, 1, 0, 7)), 2, 2);
    FREE(plain(word(0xd0, 6, 2, 0, 7)), ldvh);

    a[2] = 4;
    FREE(plain(sts), plain(lds));
    CLASH(plain(sts), ldvh, 144 + 4 * 512, 1);

    /* One byte in common: a row and a column, the same address and code. The
     * column's other bytes lie in other rows. */
    a[1] = 0x40000020;
    a[2] = 0x40000023;
    CLASH(stvv, ldvh, 144 + 4 * 512 + 2, 1);
    CLASH(ldvh, stvv, 144 + 4 * 512 + 2, 2);
    a[2] = 0x40000223; /* sixteen rows further down */
    FREE(stvv, ldvh);

    /* One byte of the store under two codes: bank 1, cell 1 is address 0x20 under
     * code 1, and under code 2 address 0x21, of the word at 0x20. */
    a[2] = 0x80000020;
    CLASH(plain(sts), plain(lds), 144 + 512 + 2, 1);
}

static void refusals_of_exchanges(void)
{
    struct triple good = plain(0xcc181234), one = plain(0x7f000000), two = plain(0xc3000000);
    struct triple three = by(word(0xca, 1, 0, 0, 0), 32, 0);
    struct triple four = by(word(0x8f, 0, 1, 2, 7), 0, 0x20000);

    clear();
    NO_VERDICT(one, two, 1);
    NO_VERDICT(two, one, 2);
    NO_VERDICT(good, one, 1);
    NO_VERDICT(three, four, 3);
    NO_VERDICT(four, three, 4);
    NO_VERDICT(good, three, 3);
    NO_VERDICT(four, good, 4);
    for (int i = 0; i < 12; i++) {
        size_t n[6] = { SECOND_DS, SECOND_A, SECOND_R, SECOND_C, SECOND_VC, SECOND_V };

        n[i / 2] += i % 2 ? 1 : (size_t)-1;
        clash = place = writer = KEPT;
        CHECK(second_may_swap(one.word, 0, 0, good.word, 0, 0, ds, n[0], a, n[1], r, n[2],
                              c, n[3], vc, n[4], v, n[5], &clash, &place, &writer) == 5);
        CHECK(clash == 0 && place == 0 && writer == 0);
    }
}

int main(void)
{
    examples_1_to_3();
    examples_4_and_5();
    examples_6_to_8();
    example_9();
    example_10();
    clips_at_both_ends();
    lab_lines();
    translation_is_one_to_one();
    for (int way = HORIZONTAL; way <= SCALAR; way++) {
        every_load((enum way)way, 0);
        every_load((enum way)way, 8);
        every_store((enum way)way);
    }
    counts_of_the_adding_forms();
    places_of_address_instructions();
    places_of_accesses();
    places_of_vector_instructions();
    reads_of_every_vector_opcode();
    refusals_of_places();
    places_refuse_as_a_step_does();
    for (int way = HORIZONTAL; way <= SCALAR; way++)
        every_byte_place((enum way)way);
    exchanges_of_address_registers();
    exchanges_of_vector_registers();
    exchanges_of_accesses();
    refusals_of_exchanges();
    failures += selftest_clipped();
    failures += selftest_lines();
    failures += selftest_parts();
    return failures == 0 ? 0 : 1;
}
