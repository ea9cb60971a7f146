/* selftest_lines.c - checks the writing and the reading of lines against cases made by
 * hand from document 02's wish 2, the tables of the two chapters and the fields of
 * document 01: lines and their words, texts that are refused, every value of every
 * field; and against single bytes changed, put in and left out, of which reading may
 * accept only what writing gives. */
#include "selftest.h"

#include "documented.h"
#include "lines.h"

#include <stdio.h>
#include <string.h>

enum { ROOM = 80, KEPT = 0xa5 }; /* KEPT: what the output holds where nothing is written */

static int failures;

/* A few failures tell enough; the text is shown up to its line feed. */
static void check(int ok, const char *what, uint32_t word, const char *text)
{
    if (ok)
        return;
    if (failures++ < 10)
        fprintf(stderr, "selftest: lines: %s: %08lx %.*s\n", what, (unsigned long)word,
                (int)strcspn(text, "\n"), text);
}

static int all_kept(const uint8_t *bytes, size_t n)
{
    size_t i = 0;

    while (i < n && bytes[i] == KEPT)
        i++;
    return i == n;
}

/* The word must be written so, and the bytes after the line must stay. */
static void writes(uint32_t word, const char *line)
{
    uint8_t out[ROOM];
    uint32_t length = 99;
    size_t n = strlen(line);

    memset(out, KEPT, sizeof out);
    check(second_write_line(word, out, sizeof out, &length) == 0, "written", word, line);
    check(length == n && memcmp(out, line, n) == 0, "the line", word, line);
    check(all_kept(out + n, sizeof out - n), "the bytes after it", word, line);
}

static void reads(const char *line, uint32_t word)
{
    uint32_t read = 99;

    check(second_read_line((const uint8_t *)line, strlen(line), &read) == 0, "read", word, line);
    check(read == word, "the word", word, line);
}

static void refuses(const char *text, size_t length, uint32_t answer)
{
    uint32_t word = 99;

    check(second_read_line((const uint8_t *)text, length, &word) == answer, "refused", answer, text);
    check(word == 0, "the word of a refusal", answer, text);
}

/* ---- Lines and their words ---- */

/* The word is its own normal form; the bits that it ignores are given apart. An opcode
 * with a flags register has a line that shows it, and registers that differ. */
static const struct { uint32_t word, ignored; const char *line; } lines[] = {
    { 0x88088600, 0x0001f8, "vmin s $vc0 $v1 $v2 $v3\n" },
    { 0x88fffe03, 0x0001f8, "vmin s $vc3 $v31 $v31 $v31\n" },
    { 0x89f83e07, 0x0001f8, "vmax s $v31 $v0 $v31\n" },
    { 0x89f77802, 0x0001f8, "vmax s $vc2 $v30 $v29 $v28\n" },
    { 0x8a07c003, 0x003ff8, "vabs s $vc3 $v0 $v31\n" },
    { 0x8b550007, 0x003ff8, "vneg s $v10 $v20\n" },
    { 0x8bf84001, 0x003ff8, "vneg s $vc1 $v31 $v1\n" },
    { 0x8c214c01, 0x0001f8, "vadd s $vc1 $v4 $v5 $v6\n" },
    { 0x8d3a1202, 0x0001f8, "vsub s $vc2 $v7 $v8 $v9\n" },
    { 0x8e5b1a03, 0x0001f8, "vsar $vc3 $v11 $v12 $v13\n" },
    { 0x8f314e01, 0x8001f8, "vcmpad 0x6 $vc1 $v5 $v7\n" },
    { 0x8f7ffe07, 0x8001f8, "vcmpad 0xf $v31 $v31\n" },
    { 0x8f000000, 0x8001f8, "vcmpad 0x0 $vc0 $v0 $v0\n" },
    { 0x94088640, 0x000180, "vbitop 0x8 $vc0 $v1 $v2 $v3\n" },
    { 0x94000007, 0x000180, "vbitop 0x0 $v0 $v0 $v0\n" },
    { 0x94fffe7b, 0x000180, "vbitop 0xf $vc3 $v31 $v31 $v31\n" },
    { 0x9873e007, 0x0001f8, "vmin u $v14 $v15 $v16\n" },
    { 0x98080401, 0x0001f8, "vmin u $vc1 $v1 $v0 $v2\n" },
    { 0x998ca600, 0x0001f8, "vmax u $vc0 $v17 $v18 $v19\n" },
    { 0x9aad8002, 0x003ff8, "vabs u $vc2 $v21 $v22\n" },
    { 0x9b088640, 0x000007, "vswz lo $v1 $v2 $v3 $v4\n" },
    { 0x9bfffff8, 0x000007, "vswz hi $v31 $v31 $v31 $v31\n" },
    { 0x9b000008, 0x000007, "vswz hi $v0 $v0 $v0 $v0\n" },
    { 0x9cbe3201, 0x0001f8, "vadd u $vc1 $v23 $v24 $v25\n" },
    { 0x9dd6f807, 0x0001f8, "vsub u $v26 $v27 $v28\n" },
    { 0x9d007e00, 0x0001f8, "vsub u $vc0 $v0 $v1 $v31\n" },
    { 0x9eefbe03, 0x0001f8, "vshr $vc3 $v29 $v30 $v31\n" },
    { 0x9f200430, 0x000008, "vadd9 $vc0 $v4 $v0 $v2 $v3\n" },
    { 0x9ffffff7, 0x000008, "vadd9 $v31 $v31 $v31 $v31\n" },
    { 0xa4311092, 0x000008, "vclip $vc2 $v6 $v4 $v8 $v9\n" },
    { 0xa5188207, 0x0001f8, "vminabs $v3 $v2 $v1\n" },
    { 0xa5820803, 0x0001f8, "vminabs $vc3 $v16 $v8 $v4\n" },
    { 0xa8088000, 0x003800, "vmin s $vc0 $v1 $v2 0x0\n" },
    { 0xa91907ff, 0x003800, "vmax s $v3 $v4 0xff\n" },
    { 0xa9104400, 0x003800, "vmax s $vc0 $v2 $v1 0x80\n" },
    { 0xaa298079, 0x003800, "vand $vc1 $v5 $v6 0xf\n" },
    { 0xab3a0402, 0x003800, "vxor $vc2 $v7 $v8 0x80\n" },
    { 0xac10c02f, 0x003800, "vadd s $v2 $v3 0x5\n" },
    { 0xac07c7d9, 0x003800, "vadd s $vc1 $v0 $v31 0xfb\n" },
    { 0xad400087, 0x07f800, "vmov $v8 0x10\n" },
    { 0xadf807f8, 0x07f800, "vmov $vc0 $v31 0xff\n" },
    { 0xae4a803b, 0x003800, "vsar $vc3 $v9 $v10 0x7\n" },
    { 0xafffc52f, 0x003800, "vor $v31 $v31 0xa5\n" },
    { 0xaf0802aa, 0x003800, "vor $vc2 $v1 $v0 0x55\n" },
    { 0xb85b03fb, 0x003800, "vmin u $vc3 $v11 $v12 0x7f\n" },
    { 0xb900000f, 0x003800, "vmax u $v0 $v0 0x1\n" },
    { 0xb9ff87f1, 0x003800, "vmax u $vc1 $v31 $v30 0xfe\n" },
    { 0xba298001, 0x003ff8, "mov $vc1 $v5 $v6\n" },
    { 0xba07c007, 0x003ff8, "mov $v0 $v31\n" },
    { 0xbb080000, 0x07ffff, "mov $v1 $vc\n" },
    { 0xbbf80000, 0x07ffff, "mov $v31 $vc\n" },
    { 0xbc6b8642, 0x003800, "vadd u $vc2 $v13 $v14 0xc8\n" },
    { 0xbd7c004f, 0x003800, "vsub u $v15 $v16 0x9\n" },
    { 0xbd0047fb, 0x003800, "vsub u $vc3 $v0 $v1 0xff\n" },
    { 0xbe8c87c0, 0x003800, "vshr $vc0 $v17 $v18 0xf8\n" },
    { 0xbf000000, 0xffffff, "vnop\n" },

    { 0xc0088600, 0x0001f8, "ldavh $v1 $c0 $a2 $a3\n" },
    { 0xc1fffe07, 0x0001f8, "ldavv $v31 $a31 $a31\n" },
    { 0xc1190a02, 0x0001f8, "ldavv $v3 $c2 $a4 $a5\n" },
    { 0xc2214c03, 0x0001f8, "ldas $r4 $c3 $a5 $a6\n" },
    { 0xc4088601, 0x0001f8, "stavh $v2 $c1 $a1 $a3\n" },
    { 0xc53a1207, 0x0001f8, "stavv $v8 $a7 $a9\n" },
    { 0xc5f80200, 0x0001f8, "stavv $v0 $c0 $a31 $a1\n" },
    { 0xc607fe02, 0x0001f8, "stas $r31 $c2 $a0 $a31\n" },
    { 0xca281200, 0x07c1f8, "aadd $c0 $a5 $a9\n" },
    { 0xcaf80007, 0x07c1f8, "aadd $a31 $a0\n" },
    { 0xcb088803, 0x0001f8, "add $c3 $a1 $a2 $a4\n" },
    { 0xcc181234, 0x070000, "setlo $a3 0x1234\n" },
    { 0xcc000000, 0x070000, "setlo $a0 0x0\n" },
    { 0xcdf8ffff, 0x070000, "sethi $a31 0xffff\n" },
    { 0xd0000087, 0x000000, "ldavh $v0 $a0 0x10\n" },
    { 0xd0000000, 0x000000, "ldavh $v0 $c0 $a0 0x0\n" },
    { 0xd1087ffa, 0x000000, "ldavv $v1 $c2 $a1 -0x1\n" },
    { 0xd2f82007, 0x000000, "ldas $r31 $a0 -0x400\n" },
    { 0xd210dff9, 0x000000, "ldas $r2 $c1 $a3 0x3ff\n" },
    { 0xd3ffba71, 0x000180, "bitop 0xe $c1 $a31 $a30 $a29\n" },
    { 0xd3000007, 0x000180, "bitop 0x0 $a0 $a0 $a0\n" },
    { 0xd4198080, 0x000000, "stavh $v6 $c0 $a3 0x10\n" },
    { 0xd407e00f, 0x000000, "stavh $v31 $a0 -0x3ff\n" },
    { 0xd521dff9, 0x000000, "stavv $v7 $c1 $a4 0x3ff\n" },
    { 0xd6f83c07, 0x000000, "stas $r0 $a31 -0x80\n" },
    { 0xd6107ff3, 0x000000, "stas $r1 $c3 $a2 -0x2\n" },
    { 0xd84abffb, 0x000000, "ldvh $v9 $c3 $a10 0x7ff\n" },
    { 0xd910401f, 0x000000, "ldvv $v2 $a1 0x3\n" },
    { 0xd907fff9, 0x000000, "ldvv $v0 $c1 $a31 0x7ff\n" },
    { 0xda38a000, 0x000000, "lds $r7 $c0 $a2 0x400\n" },
    { 0xdc018087, 0x000000, "stvh $v6 $a0 0x10\n" },
    { 0xdcf82003, 0x000000, "stvh $v0 $c3 $a31 0x400\n" },
    { 0xdd07c00a, 0x000000, "stvv $v31 $c2 $a0 0x1\n" },
    { 0xdd107f87, 0x000000, "stvv $v1 $a2 0x7f0\n" },
    { 0xde09003f, 0x000000, "sts $r4 $a1 0x7\n" },
    { 0xdef7c401, 0x000000, "sts $r31 $c1 $a30 0x80\n" },
    { 0xdf000000, 0xffffff, "anop\n" },
};

enum { LINES = sizeof lines / sizeof lines[0] };

/* Words that are no normal forms, with bits in single fields: an absent flags register
 * that is not 7, flags where there are none, and the sides of the shown fields. */
static const struct { uint32_t word, normal; const char *line; } others[] = {
    { 0x88088604, 0x88088607, "vmin s $v1 $v2 $v3\n" },
    { 0x88088605, 0x88088607, "vmin s $v1 $v2 $v3\n" },
    { 0x88088606, 0x88088607, "vmin s $v1 $v2 $v3\n" },
    { 0x88088707, 0x88088607, "vmin s $v1 $v2 $v3\n" },
    { 0x8fb14e05, 0x8f314e07, "vcmpad 0x6 $v5 $v7\n" },
    { 0x940886c4, 0x94088647, "vbitop 0x8 $v1 $v2 $v3\n" },
    { 0x9b088643, 0x9b088640, "vswz lo $v1 $v2 $v3 $v4\n" },
    { 0xa431109c, 0xa4311097, "vclip $v6 $v4 $v8 $v9\n" },
    { 0xad438084, 0xad400087, "vmov $v8 0x10\n" },
    { 0xba299ffe, 0xba298007, "mov $v5 $v6\n" },
    { 0xbb200007, 0xbb200000, "mov $v4 $vc\n" },
    { 0xbb200003, 0xbb200000, "mov $v4 $vc\n" },
    { 0xbf000007, 0xbf000000, "vnop\n" },
    { 0xca281206, 0xca281207, "aadd $a5 $a9\n" },
    { 0xca285205, 0xca281207, "aadd $a5 $a9\n" },
    { 0xcc1f1234, 0xcc181234, "setlo $a3 0x1234\n" },
    { 0xd0000084, 0xd0000087, "ldavh $v0 $a0 0x10\n" },
    { 0xd1087ffd, 0xd1087fff, "ldavv $v1 $a1 -0x1\n" },
    { 0xdf800000, 0xdf000000, "anop\n" },
    { 0xdf000001, 0xdf000000, "anop\n" },
};

static void normal_forms(void)
{
    for (size_t i = 0; i < LINES; i++) {
        writes(lines[i].word, lines[i].line);
        writes(lines[i].word | lines[i].ignored, lines[i].line);
        reads(lines[i].line, lines[i].word);
    }
}

static void other_words(void)
{
    for (size_t i = 0; i < sizeof others / sizeof others[0]; i++) {
        writes(others[i].word, others[i].line);
        reads(others[i].line, others[i].normal);
    }
}

static int has_line(uint32_t op)
{
    size_t i = 0;

    while (i < LINES && lines[i].word >> 24 != op)
        i++;
    return i < LINES;
}

static void every_opcode_has_a_line(void)
{
    for (size_t i = 0; i < sizeof documented; i++)
        check(has_line(documented[i]), "a case of the opcode", documented[i], "");
}

/* ---- Every value of a field ---- */

/* The number goes from 0 up; from `count` on there is no word. */
static const struct field { uint32_t word, first, count; const char *format; } fields[] = {
    { 0xcc000000, 0, 0x10000, "setlo $a0 0x%x\n" },
    { 0xcd000000, 0, 0x10000, "sethi $a0 0x%x\n" },
    { 0xd8000007, 3, 0x800, "ldvh $v0 $a0 0x%x\n" },
    { 0xde000000, 3, 0x800, "sts $r0 $c0 $a0 0x%x\n" },
    { 0xd0000007, 3, 0x400, "ldavh $v0 $a0 0x%x\n" },
    { 0xd6000000, 3, 0x400, "stas $r0 $c0 $a0 0x%x\n" },
    { 0xad000007, 3, 0x100, "vmov $v0 0x%x\n" },
    { 0xbe000003, 3, 0x100, "vshr $vc3 $v0 $v0 0x%x\n" },
    { 0xd3000007, 3, 0x10, "bitop 0x%x $a0 $a0 $a0\n" },
    { 0x94000000, 3, 0x10, "vbitop 0x%x $vc0 $v0 $v0 $v0\n" },
    { 0x8f000007, 19, 0x10, "vcmpad 0x%x $v0 $v0\n" },
    { 0x8f000007, 14, 32, "vcmpad 0x0 $v%u $v0\n" },
    { 0x8f000007, 9, 32, "vcmpad 0x0 $v0 $v%u\n" },
    { 0x9b000000, 19, 32, "vswz lo $v%u $v0 $v0 $v0\n" },
    { 0x9b000000, 14, 32, "vswz lo $v0 $v%u $v0 $v0\n" },
    { 0x9b000000, 9, 32, "vswz lo $v0 $v0 $v%u $v0\n" },
    { 0x9b000000, 4, 32, "vswz lo $v0 $v0 $v0 $v%u\n" },
    { 0xbb000000, 19, 32, "mov $v%u $vc\n" },
    { 0xcb000007, 19, 32, "add $a%u $a0 $a0\n" },
    { 0xcb000007, 14, 32, "add $a0 $a%u $a0\n" },
    { 0xcb000007, 9, 32, "add $a0 $a0 $a%u\n" },
    { 0xc2000007, 19, 32, "ldas $r%u $a0 $a0\n" },
    { 0xc2000007, 14, 32, "ldas $r0 $a%u $a0\n" },
    { 0xc2000007, 9, 32, "ldas $r0 $a0 $a%u\n" },
    { 0xc6000007, 14, 32, "stas $r%u $a0 $a0\n" },
    { 0xc6000007, 19, 32, "stas $r0 $a%u $a0\n" },
    { 0xc6000007, 9, 32, "stas $r0 $a0 $a%u\n" },
    { 0xba000000, 0, 4, "mov $vc%u $v0 $v0\n" },
    { 0xca000000, 0, 4, "aadd $c%u $a0 $a0\n" },
};

static void every_value(struct field f)
{
    char line[ROOM];

    for (uint32_t n = 0; n < 2 * f.count; n++) {
        int length = snprintf(line, sizeof line, f.format, (unsigned)n);

        if (n < f.count) {
            writes(f.word | n << f.first, line);
            reads(line, f.word | n << f.first);
        } else {
            refuses(line, (size_t)length, 9);
        }
    }
}

static void every_field(void)
{
    for (size_t i = 0; i < sizeof fields / sizeof fields[0]; i++)
        every_value(fields[i]);
}

/* IMM has eleven bits, so that -n is 0x800 - n. */
static void every_negative_value(void)
{
    char line[ROOM];

    for (uint32_t n = 0; n < 0x1000; n++) {
        int length = snprintf(line, sizeof line, "stavv $v0 $a0 -0x%x\n", (unsigned)n);
        uint32_t word = 0xd5000007 | ((0x800 - n) & 0x7ff) << 3;

        if (n >= 1 && n <= 0x400) {
            writes(word, line);
            reads(line, word);
        } else {
            refuses(line, (size_t)length, 9);
        }
    }
}

/* ---- Texts that are refused ---- */

struct refused { const char *text; size_t length; };

#define T(text) { text, sizeof text - 1 }

/* 10: the only line feed is not the last byte. That is told before anything else. */
static const struct refused unended[] = {
    T(""), T(" "), T("anop"), T("setlo $a3 0x1234"), T("nop"), T("setlo $a3"), T("anop\n\n"), T("\n\n"),
    T("\nanop\n"), T("anop\nvnop\n"), T("anop\nvnop"), T("anop\n "), T("anop\n\0"), T("anop\n\r"),
    T("\nanop"), T("nop\n\n"), T("setlo\n$a3 0x1234\n"), T("setlo $a3\n0x1234\n"),
    T("setlo $a3 0x1234\n\n"),
};

/* 8: no name; also where the rest could not be read either. */
static const struct refused unnamed[] = {
    T("\n"), T(" \n"), T("  \n"), T(" anop\n"), T("\tanop\n"), T("\0\n"), T("\xff\n"), T("ano\n"),
    T("anopp\n"), T("a\n"), T("nop\n"), T("Anop\n"), T("ANOP\n"), T("anoP\n"), T("anop\r\n"), T("anop\t\n"),
    T("anop\0\n"), T("\0anop\n"), T("anop\xff\n"), T("anop;\n"), T("s\n"), T("lo\n"), T("$a3\n"),
    T("0xcc181234\n"), T("cc181234\n"), T("# anop\n"), T("vmins $v1 $v2 $v3\n"), T("vmin\ts $v1 $v2 $v3\n"),
    T("vcmppad 0x6 $v5 $v7\n"), T("set $a3 0x1234\n"), T("setl $a3 0x1234\n"), T("setlo$a3 0x1234\n"),
    T("setlo\t$a3 0x1234\n"), T("ld $v0 $a0 0x0\n"), T("lda $v0 $a0 0x0\n"), T("ldvs $r0 $a0 0x0\n"),
    T("stv $v0 $a0 0x0\n"), T("vshl $v1 $v2 $v3\n"), T("vadd8 $v1 $v2 $v3 $v4\n"), T("vmovvc $v1\n"),
    T("vbit 0x0 $v1 $v2 $v3\n"), T("addd $a1 $a2 $a3\n"), T("stlo $a3 0x1234 0x5678 \n"), T("nop  \n"),
};

/* 9, as all that follow: spaces; then operands that are missing; then those too many. */
static const struct refused spaces_and_counts[] = {
    T("anop \n"), T("vnop \n"), T("anop  \n"), T("setlo  $a3 0x1234\n"), T("setlo $a3  0x1234\n"),
    T("setlo $a3 0x1234 \n"), T("setlo $a3\t0x1234\n"), T("setlo $a3 0x1234\r\n"), T("setlo $a3,0x1234\n"),
    T("setlo $a3, 0x1234\n"), T("vmin  s $v1 $v2 $v3\n"), T("vmin s  $v1 $v2 $v3\n"), T("aadd  $a1 $a2\n"),
    T("mov $v1  $vc\n"), T("mov $v1 $vc \n"), T("ldavh $v0  $a0 0x0\n"),

    T("vmin\n"), T("vmin \n"), T("vmin s\n"), T("vmin s \n"), T("setlo\n"), T("setlo \n"), T("mov\n"),
    T("vswz\n"), T("vswz lo\n"), T("ldavh\n"), T("bitop\n"), T("vcmpad\n"), T("aadd\n"), T("setlo $a3\n"),
    T("setlo 0x1234\n"), T("aadd $a1\n"), T("aadd $c0 $a1\n"), T("add $a1 $a2\n"), T("bitop 0x8\n"),
    T("bitop 0x8 $c0\n"), T("bitop 0x8 $a1 $a2\n"), T("bitop $a1 $a2 $a3\n"), T("vmin s $v1 $v2\n"),
    T("vabs s $v1\n"), T("vclip $v1 $v2 $v3\n"), T("vadd9 $v1 $v2 $v3\n"), T("vswz lo $v1 $v2 $v3\n"),
    T("ldvh $v0 $a0\n"), T("ldavh $v0 $c0 $a0\n"), T("mov $v1\n"), T("mov $vc\n"), T("mov $vc1 $v5\n"),
    T("vmov 0x0\n"), T("vcmpad $v5 $v7\n"), T("vcmpad 0x6 $v5\n"),

    T("anop 0x0\n"), T("anop $a0\n"), T("anop anop\n"), T("vnop $vc0\n"), T("setlo $a3 0x1234 0x0\n"),
    T("aadd $a1 $a2 $a3\n"), T("add $a1 $a2 $a3 $a4\n"), T("ldavh $v0 $a0 $a1 0x0\n"),
    T("mov $v1 $v2 $v3\n"), T("mov $v1 $vc $vc\n"), T("vabs s $v1 $v2 $v3\n"), T("vmov $v1 $v2 0x0\n"),
    T("vsar $v1 $v2 $v3 $v4\n"), T("vcmpad 0x6 $v1 $v5 $v7\n"), T("vclip $v1 $v2 $v3 $v4 $v5\n"),
    T("setlo $a3 0x1234 # a comment\n"),
};

/* What stands in the wrong place, or is of another kind than is asked there. */
static const struct refused places_and_kinds[] = {
    T("vmin $v1 $v2 $v3\n"), T("vmin S $v1 $v2 $v3\n"), T("vmin su $v1 $v2 $v3\n"),
    T("vmin s u $v1 $v2 $v3\n"), T("vmin $vc0 s $v1 $v2 $v3\n"), T("vmin $v1 $v2 $v3 s\n"),
    T("vneg $v1 $v2\n"), T("vneg u $v1 $v2\n"), T("vsub s $v1 $v2 0x5\n"), T("vsar s $v1 $v2 $v3\n"),
    T("vshr u $v1 $v2 $v3\n"), T("vminabs s $v1 $v2 $v3\n"),

    T("vswz $v1 $v2 $v3 $v4\n"), T("vswz LO $v1 $v2 $v3 $v4\n"), T("vswz l $v1 $v2 $v3 $v4\n"),
    T("vswz lohi $v1 $v2 $v3 $v4\n"), T("vswz lo hi $v1 $v2 $v3 $v4\n"), T("vswz 0x0 $v1 $v2 $v3 $v4\n"),
    T("vswz $v1 lo $v2 $v3 $v4\n"), T("vswz lo $vc0 $v1 $v2 $v3 $v4\n"), T("vswz s $v1 $v2 $v3 $v4\n"),

    T("aadd $vc0 $a1 $a2\n"), T("mov $c0 $v5 $v6\n"), T("mov $v5 $vc1 $v6\n"), T("mov $v5 $v6 $vc1\n"),
    T("ldvh $c0 $v0 $a0 0x0\n"), T("ldvh $v0 $a0 $c0 0x0\n"), T("ldvh $v0 $a0 0x0 $c0\n"),
    T("ldvh $v0 $vc0 $a0 0x0\n"), T("bitop $c0 0x8 $a1 $a2 $a3\n"), T("vcmpad $vc1 0x6 $v5 $v7\n"),
    T("aadd $c0 $c1 $a1 $a2\n"), T("setlo $c0 $a3 0x1234\n"), T("mov $vc0 $v1 $vc\n"), T("mov $v1 $vc0\n"),
    T("mov $vc $v1\n"), T("mov $vc $vc\n"),

    T("setlo $r3 0x1234\n"), T("setlo $v3 0x1234\n"), T("setlo $c3 0x1234\n"), T("setlo 0x1234 $a3\n"),
    T("setlo $a3 $a4\n"), T("aadd $a1 0x10\n"), T("add $a1 $a2 0x10\n"), T("bitop 0x8 $a1 $a2 0x10\n"),
    T("ldvh $v0 $a0 $a1\n"), T("ldvh $r0 $a0 0x0\n"), T("lds $v0 $a0 0x0\n"), T("ldavv $r0 $a0 0x0\n"),
    T("ldas $v0 $a0 0x0\n"), T("ldavh $v0 $v0 0x0\n"), T("ldavh $v0 $a0 $v0\n"), T("stvh $a0 $v0 0x0\n"),
    T("sts $v0 $a0 0x0\n"), T("stavh $r0 $a0 0x0\n"), T("vmin s $a1 $v2 $v3\n"), T("vmin s $v1 $v2 $a3\n"),
    T("vminabs $v1 $v2 0x0\n"), T("vclip $v1 $v2 $v3 0x0\n"), T("vand $v1 $v2 $v3\n"), T("vmov $v1 $v2\n"),
    T("mov $v1 0x0\n"), T("vcmpad 0x6 $v5 0x7\n"), T("vcmpad 0x6 $v5d $v7\n"), T("vcmpad 0x6 $v5 $v7d\n"),
};

static const struct refused registers[] = {
    T("setlo $a32 0x0\n"), T("setlo $a03 0x0\n"), T("setlo $a00 0x0\n"), T("setlo $a 0x0\n"),
    T("setlo $ 0x0\n"), T("setlo $A3 0x0\n"), T("setlo a3 0x0\n"), T("setlo %a3 0x0\n"),
    T("setlo $a-1 0x0\n"), T("setlo $a+1 0x0\n"), T("setlo $a 3 0x0\n"), T("setlo $a0x3 0x0\n"),
    T("setlo $a1a 0x0\n"), T("setlo $aa 0x0\n"), T("setlo $a99 0x0\n"), T("setlo $a4294967299 0x0\n"),
    T("setlo $a18446744073709551619 0x0\n"), T("setlo $a3. 0x0\n"), T("setlo $$a3 0x0\n"),
    T("lds $r32 $a0 0x0\n"), T("lds $r01 $a0 0x0\n"), T("mov $v32 $v0\n"), T("mov $v0 $v032\n"),
    T("mov $v32 $vc\n"), T("aadd $c4 $a1 $a2\n"), T("aadd $c7 $a1 $a2\n"), T("aadd $c $a1 $a2\n"),
    T("aadd $c00 $a1 $a2\n"), T("aadd $c03 $a1 $a2\n"), T("aadd $c4294967296 $a1 $a2\n"),
    T("mov $vc4 $v5 $v6\n"), T("mov $vc7 $v5 $v6\n"), T("mov $vc01 $v5 $v6\n"), T("mov $vc $v5 $v6\n"),
    T("mov $VC1 $v5 $v6\n"), T("mov $v1 $VC\n"), T("mov $v1 vc\n"),
};

static const struct refused numbers[] = {
    T("setlo $a3 1234\n"), T("setlo $a3 0\n"), T("setlo $a3 0X1234\n"), T("setlo $a3 x1234\n"),
    T("setlo $a3 0x\n"), T("setlo $a3 0x01234\n"), T("setlo $a3 0x00\n"), T("setlo $a3 00x1\n"),
    T("setlo $a3 0x0x1\n"), T("setlo $a3 0x10000\n"), T("setlo $a3 0x12g4\n"), T("setlo $a3 0xABCD\n"),
    T("setlo $a3 0xabcD\n"), T("setlo $a3 -0x1\n"), T("setlo $a3 +0x1\n"), T("setlo $a3 0x-1\n"),
    T("setlo $a3 0x 1234\n"), T("setlo $a3 0x1234h\n"), T("setlo $a3 $0x1234\n"),
    T("setlo $a3 0x100001234\n"), T("setlo $a3 0x10000000000001234\n"),

    T("ldavh $v0 $a0 0x400\n"), T("ldavh $v0 $a0 0x7ff\n"), T("ldavh $v0 $a0 -0x401\n"),
    T("ldavh $v0 $a0 -0x0\n"), T("ldavh $v0 $a0 -0x00\n"), T("ldavh $v0 $a0 -0x01\n"),
    T("ldavh $v0 $a0 0x03ff\n"), T("ldavh $v0 $a0 --0x1\n"), T("ldavh $v0 $a0 -1\n"),
    T("ldavh $v0 $a0 - 0x1\n"), T("ldavh $v0 $a0 +0x1\n"), T("ldavh $v0 $a0 0x-1\n"),
    T("ldavh $v0 $a0 -0x\n"), T("ldavh $v0 $a0 -\n"), T("ldavh $v0 $a0 -0X1\n"), T("ldavh $v0 $a0 -0xA\n"),
    T("ldavh $v0 $a0 -$a1\n"), T("ldavh $v0 $a0 -0x100000001\n"), T("stas $r0 $a0 0x400\n"),
    T("stas $r0 $a0 -0x401\n"),

    T("ldvh $v0 $a0 0x800\n"), T("ldvh $v0 $a0 -0x1\n"), T("sts $r0 $a0 0x1fff\n"), T("vmov $v0 0x100\n"),
    T("vmov $v0 -0x1\n"), T("vadd s $v0 $v0 -0x80\n"), T("vadd s $v0 $v0 0x0f\n"),
    T("bitop 0x10 $a0 $a0 $a0\n"), T("bitop 8 $a0 $a0 $a0\n"), T("bitop 0xF $a0 $a0 $a0\n"),
    T("bitop -0x1 $a0 $a0 $a0\n"), T("vbitop 0x08 $v0 $v0 $v0\n"), T("vcmpad 0x10 $v0 $v0\n"),
};

static const struct refused odd_bytes[] = {
    T("anop \0\n"), T("anop \xff\n"), T("setlo \0\n"), T("setlo $a3\0 0x1234\n"), T("setlo \0$a3 0x1234\n"),
    T("setlo $a3 0x1234\0\n"), T("setlo $a3 0x1234 \0\n"), T("setlo $a3 0x12\xb2\n"),
    T("setlo $a\xb3 0x1234\n"), T("setlo $a3\v0x1234\n"), T("setlo $a3\xa0" "0x1234\n"),
    T("mov $v1 $vc\0\n"), T("vmin s\0 $v1 $v2 $v3\n"), T("vswz lo\0 $v1 $v2 $v3 $v4\n"),
    T("aadd $c0\0 $a1 $a2\n"), T("setlo $a3 0x123\x7f\n"), T("setlo $a3 0x123:\n"), T("setlo $a3 0x123`\n"),
    T("setlo $a3 0x123/\n"), T("setlo $a/ 0x1234\n"), T("setlo $a: 0x1234\n"),
};

static void refuses_all(const struct refused *list, size_t n, uint32_t answer)
{
    for (size_t i = 0; i < n; i++)
        refuses(list[i].text, list[i].length, answer);
}

#define REFUSES_ALL(list, answer) refuses_all(list, sizeof list / sizeof list[0], answer)

/* ---- Single bytes ---- */

/* What is read must be written so; and 10 is for the line feeds, and for them alone. */
static void only_what_is_written(const uint8_t *text, size_t n)
{
    uint8_t out[ROOM];
    uint32_t word, length;
    uint32_t answer = second_read_line(text, n, &word);
    int ended = n > 0 && memchr(text, '\n', n) == text + n - 1;

    check((answer == 10) == !ended, "the line feed", answer, "");
    if (answer != 0)
        return;
    check(second_write_line(word, out, sizeof out, &length) == 0, "read, not written", word, "");
    check(length == n && memcmp(out, text, n) == 0, "read, written otherwise", word, "");
}

/* Puts each byte in the place of the `left_out` bytes at i, of which there may be none. */
static void every_byte_at(const char *line, size_t i, size_t left_out)
{
    uint8_t text[ROOM];
    size_t n = strlen(line);

    memcpy(text, line, i);
    memcpy(text + i + 1, line + i + left_out, n - i - left_out);
    for (int b = 0; b < 256; b++) {
        text[i] = (uint8_t)b;
        only_what_is_written(text, n + 1 - left_out);
    }
}

static void no_byte_at(const char *line, size_t i)
{
    uint8_t text[ROOM];
    size_t n = strlen(line);

    memcpy(text, line, i);
    memcpy(text + i, line + i + 1, n - i - 1);
    only_what_is_written(text, n - 1);
}

static void every_byte(const char *line)
{
    for (size_t i = 0; i < strlen(line); i++) {
        every_byte_at(line, i, 1);
        every_byte_at(line, i, 0);
        no_byte_at(line, i);
    }
    every_byte_at(line, strlen(line), 0);
}

/* ---- Refusals of writing ---- */

static void no_line(uint32_t word, size_t room, uint32_t answer)
{
    uint8_t out[ROOM];
    uint32_t length = 99;

    memset(out, KEPT, sizeof out);
    check(second_write_line(word, out, room, &length) == answer, "not written", word, "");
    check(length == 0 && all_kept(out, sizeof out), "an untouched output", word, "");
}

/* Whatever the other bits are, and before the output is looked at. */
static void no_line_at_all(uint32_t op, uint32_t answer)
{
    no_line(op << 24, ROOM, answer);
    no_line(op << 24, 0, answer);
    no_line(op << 24 | 0xffffff, ROOM, answer);
}

static void opcodes_without_a_line(void)
{
    for (uint32_t op = 0; op < 256; op++)
        if (op < 0x80 || op > 0xdf)
            no_line_at_all(op, 1);
        else if (memchr(documented, (int)op, sizeof documented) == NULL)
            no_line_at_all(op, 2);
}

/* Each output that is too short, and one that is just long enough. */
static void outputs_of_every_length(uint32_t word, const char *line)
{
    uint8_t out[ROOM];
    uint32_t length;
    size_t n = strlen(line);

    for (size_t room = 0; room < n; room++)
        no_line(word, room, 11);
    memset(out, KEPT, sizeof out);
    check(second_write_line(word, out, n, &length) == 0, "just long enough", word, line);
    check(length == n && memcmp(out, line, n) == 0, "the line, just long enough", word, line);
    check(all_kept(out + n, sizeof out - n), "the bytes after its end", word, line);
    check(second_write_line(word, NULL, 0, &length) == 11, "no output at all", word, line);
}

int selftest_lines(void)
{
    uint32_t word;

    normal_forms();
    other_words();
    every_opcode_has_a_line();
    every_field();
    every_negative_value();
    REFUSES_ALL(unended, 10);
    REFUSES_ALL(unnamed, 8);
    REFUSES_ALL(spaces_and_counts, 9);
    REFUSES_ALL(places_and_kinds, 9);
    REFUSES_ALL(registers, 9);
    REFUSES_ALL(numbers, 9);
    REFUSES_ALL(odd_bytes, 9);
    check(second_read_line(NULL, 0, &word) == 10, "no text at all", 0, "");
    opcodes_without_a_line();
    for (size_t i = 0; i < LINES; i++) {
        every_byte(lines[i].line);
        outputs_of_every_length(lines[i].word, lines[i].line);
    }
    return failures;
}
