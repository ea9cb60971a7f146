/* texts.c - texts that are nearly lines, by rule: a line's pieces, each in another spelling; its tokens in another order; another's name. */
#include "../compare/draw.h"
#include "documented.h"
#include "parts.h"
#include "report.h"

#include <ctype.h>
#include <stdio.h>
#include <stdlib.h>
#include <string.h>

/* So many words of each opcode. */
enum { EACH = 5 };

/* What a piece of a line is replaced by. @ stands for the piece itself; < for its front, as `$a` or `-0x`, and > for the digits behind that; ^ for
   these in upper case; # for these as hexadecimal, in decimal, and ~ the other way round. A piece is a token or what is between two, so that one
   list serves spaces, names, registers and numerals. */
static const char *const spellings[] = {
    /* spaces and line feeds */
    "", " ", "  ", "\t", "\n", "\r\n", "\v", ",", ", ", "@@", " @", "@ ", "@\t", "\t@", "@\n", "\n@", "@\r", "@ @", "@\n@", "@;",
    /* numerals */
    "<0>", "<^", "<", "<-1", ">", "-@", "+@", "--@", "- @", "0>", "00>", "0X>", "0x>", "0x0>", "0X^", "0b>", "0o>", "x>", "$>", "#", "-#",
    ">h", "0x0", "-0x0", "0x00", "-0x00", "0x1", "-0x1", "0x3", "0x7", "0xf", "0x10", "-0x10", "0x7f", "0x80", "-0x80", "0xff", "-0xff",
    "0x100", "-0x100", "0x3ff", "-0x3ff", "0x400", "-0x400", "0x401", "-0x401", "0x7ff", "-0x7ff", "0x800", "-0x800", "0x801", "0x1fff",
    "0x2000", "0x7fff", "0x8000", "-0x8000", "0xffff", "-0xffff", "0x10000", "0x10001", "0xfffff", "0x7fffffff", "0x80000000",
    "-0x80000000", "0xffffffff", "0x100000000", "0x100000001", "-0x100000001", "0x7fffffffffffffff", "-0x8000000000000000",
    "0xffffffffffffffff", "-0xffffffffffffffff", "0x10000000000000000", "0x10000000000000001", "0", "1", "-1", "-", "0x", "-0x", "0xg",
    "0xG", "0x/", "0x:", "0x`", "0x1g",
    /* registers */
    "<0", "<1", "<3", "<4", "<7", "<8", "<9", "<10", "<31", "<32", "<39", "<40", "<100", "<255", "<256", "<65536", "<03", "<00", "<000",
    "<0x>", "<~", "<#", "<+>", "<:", "</", "<>0", "<>d", "<>x", "< >", "<[>]", "<4294967296", "<4294967297", "<18446744073709551616",
    "<18446744073709551617", "$a>", "$r>", "$v>", "$c>", "$vc>", "$va>", "$A>", "$V>", "$$>", "a>", "v>", "$", "$a", "$r", "$v", "$c",
    "$vc", "$a0", "$r0", "$v0", "$c0", "$c3", "$c4", "$c7", "$vc0", "$vc3", "$vc4", "$vc7", "$v0d", "$c0 @", "$c3 @", "$c4 @", "$vc0 @",
    "$vc3 @", "$vc4 @", "$vc @", "@ $c0", "@ $vc0", "@ $v0", "@ $a0", "@ 0x0",
    /* names and their letters */
    "s", "u", "lo", "hi", "S", "U", "l", "h", "low", "d", "s @", "u @", "lo @", "hi @", "@ s", "@ u", "@ lo", "@ hi", "@s", "@u", "@h",
    "@0", "@.s", "v@", "a@", "nop", "vcmppad", "VADD", "Setlo", "se", "set", "setl", "setlos", "setlo\\", "\xff", "vadd\x80",
};

enum { SPELLINGS = sizeof spellings / sizeof spellings[0] };

/* ---- The pieces of a line ---- */

/* Nothing, then a token and what is behind it by turns; the last one is the line feed. A line has at most as many tokens as bytes. */
struct pieces {
    size_t count;
    struct {
        const uint8_t *bytes;
        size_t n;
    } piece[2 * VP1_LINE + 1];
};

static void take_apart(const struct line *line, struct pieces *p)
{
    size_t from = 0;

    p->count = 1;
    p->piece[0].bytes = line->bytes;
    p->piece[0].n = 0;
    for (size_t i = 0; i < line->n; i++)
        if (line->bytes[i] == ' ' || line->bytes[i] == '\n') {
            p->piece[p->count].bytes = line->bytes + from;
            p->piece[p->count++].n = i - from;
            p->piece[p->count].bytes = line->bytes + i;
            p->piece[p->count++].n = 1;
            from = i + 1;
        }
}

static void add_piece(struct text *t, const struct pieces *p, size_t i) { add(t, p->piece[i].bytes, p->piece[i].n); }

/* ---- Other spellings ---- */

/* How long a piece's front is: up to its 0x and with it, or up to its first digit. */
static size_t front(const char *piece)
{
    const char *prefix = strstr(piece, "0x");

    return prefix ? (size_t)(prefix - piece) + 2 : strcspn(piece, "0123456789");
}

static void add_upper(struct text *t, const char *digits)
{
    for (; *digits; digits++)
        add_many(t, (uint8_t)toupper((unsigned char)*digits), 1);
}

static void add_number(struct text *t, const char *digits, int base)
{
    char number[24];

    snprintf(number, sizeof number, base == 16 ? "%lu" : "%lx", strtoul(digits, NULL, base));
    add_string(t, number);
}

static void add_sign(struct text *t, char sign, const char *piece)
{
    switch (sign) {
    case '@': add_string(t, piece); break;
    case '<': add(t, piece, front(piece)); break;
    case '>': add_string(t, piece + front(piece)); break;
    case '^': add_upper(t, piece + front(piece)); break;
    case '#': add_number(t, piece + front(piece), 16); break;
    case '~': add_number(t, piece + front(piece), 10); break;
    default: add_many(t, (uint8_t)sign, 1);
    }
}

static void add_spelling(struct text *t, const char *spelling, const struct pieces *p, size_t i)
{
    char piece[VP1_LINE + 1] = "";

    memcpy(piece, p->piece[i].bytes, p->piece[i].n);
    for (; *spelling; spelling++)
        add_sign(t, *spelling, piece);
}

/* The line with its piece i spelt so. */
static int spelt(const struct pieces *p, size_t i, const char *spelling)
{
    static struct text t;

    next_case(at.word);
    t.n = 0;
    for (size_t k = 0; k < p->count; k++)
        if (k == i)
            add_spelling(&t, spelling, p, i);
        else
            add_piece(&t, p, k);
    return read_case(&t);
}

static int spell(const struct pieces *p)
{
    for (size_t k = 0; k < p->count * SPELLINGS; k += brief ? 31 : 1)
        if (!spelt(p, k % p->count, spellings[k / p->count]))
            return 0;
    return 1;
}

/* ---- Another order, another name ---- */

/* The line with its token i moved to place j; without it, where they are the same. */
static int moved(const struct pieces *p, size_t i, size_t j)
{
    static struct text t;
    size_t next = 0;

    next_case(at.word);
    t.n = 0;
    for (size_t place = 0; place < p->count / 2; place++) {
        size_t token = place == j ? i : next + (next >= i);

        next += place != j;
        if (place == j && i == j)
            continue;
        if (t.n > 0)
            add_string(&t, " ");
        add_piece(&t, p, 2 * token + 1);
    }
    add_string(&t, "\n");
    return read_case(&t);
}

static int move(const struct pieces *p)
{
    size_t tokens = p->count / 2;

    for (size_t k = 0; k < tokens * tokens; k++)
        if (!moved(p, k / tokens, k % tokens))
            return 0;
    return 1;
}

/* The names come from lines. */
static int rename_as(const struct pieces *p)
{
    for (size_t i = 0; i < sizeof documented; i += brief ? 7 : 1) {
        char name[VP1_LINE + 1] = "";
        struct line other;

        if (!write_word((uint32_t)documented[i] << 24, &other))
            return 0;
        memcpy(name, other.bytes, other.n);
        name[strcspn(name, " \n")] = '\0';
        if (!spelt(p, 1, name))
            return 0;
    }
    return 1;
}

int texts(void)
{
    for (unsigned long k = 0; k < share(EACH * sizeof documented); k++) {
        uint32_t word = draw_word_of(k);
        struct line line;
        struct pieces p;

        at.word = word;
        if (!write_word(word, &line))
            return 0;
        take_apart(&line, &p);
        if (!spell(&p) || !move(&p) || !rename_as(&p))
            return 0;
    }
    return 1;
}
