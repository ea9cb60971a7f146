/* lines.c - the line of an instruction word and the word of a line: one table of the
 * instructions; a writer, which goes through the operands of the word's row; and a
 * parser, which takes the operands of a row from the text one by one. */
#include "lines.h"

#include <string.h>

/* ---- Operands ---- */

enum kind {
    TEXT,     /* the text, and no field */
    LO_OR_HI,
    REGISTER, /* the text and a decimal number */
    FLAGS,    /* the same; left out where the field is 4 or more */
    UNSIGNED, /* 0x and a hexadecimal number */
    SIGNED    /* the same, with - in front where it is negative */
};

enum { FLAGS_MOST = 3, FLAGS_ABSENT = 7 };

/* The field is `width` bits of the word, from bit `first`. */
struct operand { enum kind kind; const char *text; uint32_t first, width; };

/* SRC2S has no name of its own: a line shows the field SRC2. */
enum {
    END, S, U, LOHI, ALL_VC, C, VC,
    A_DST, A_SRC1, A_SRC2, R_DST, R_SRC1, V_DST, V_SRC1, V_SRC2, V_SRC3,
    BITOP, CMPOP, BIMM, IMM16, UIMM, IMM
};

static const struct operand operands[] = {
    [S] = { TEXT, "s", 0, 0 },
    [U] = { TEXT, "u", 0, 0 },
    [LOHI] = { LO_OR_HI, "", 3, 1 },
    [ALL_VC] = { TEXT, "$vc", 0, 0 },
    [C] = { FLAGS, "$c", 0, 3 },
    [VC] = { FLAGS, "$vc", 0, 3 },
    [A_DST] = { REGISTER, "$a", 19, 5 },
    [A_SRC1] = { REGISTER, "$a", 14, 5 },
    [A_SRC2] = { REGISTER, "$a", 9, 5 },
    [R_DST] = { REGISTER, "$r", 19, 5 },
    [R_SRC1] = { REGISTER, "$r", 14, 5 },
    [V_DST] = { REGISTER, "$v", 19, 5 },
    [V_SRC1] = { REGISTER, "$v", 14, 5 },
    [V_SRC2] = { REGISTER, "$v", 9, 5 },
    [V_SRC3] = { REGISTER, "$v", 4, 5 },
    [BITOP] = { UNSIGNED, "", 3, 4 },
    [CMPOP] = { UNSIGNED, "", 19, 4 },
    [BIMM] = { UNSIGNED, "", 3, 8 },
    [IMM16] = { UNSIGNED, "", 0, 16 },
    [UIMM] = { UNSIGNED, "", 3, 11 },
    [IMM] = { SIGNED, "", 3, 11 },
};

/* ---- Instructions ---- */

/* The operands stand in the order of the chapter's table; END is the last. */
struct row { const char *name; uint8_t operands[6]; };

/* By opcode. A row without a name is not documented. */
static const struct row rows[256] = {
    [0x88] = { "vmin", { S, VC, V_DST, V_SRC1, V_SRC2 } },
    [0x89] = { "vmax", { S, VC, V_DST, V_SRC1, V_SRC2 } },
    [0x8a] = { "vabs", { S, VC, V_DST, V_SRC1 } },
    [0x8b] = { "vneg", { S, VC, V_DST, V_SRC1 } },
    [0x8c] = { "vadd", { S, VC, V_DST, V_SRC1, V_SRC2 } },
    [0x8d] = { "vsub", { S, VC, V_DST, V_SRC1, V_SRC2 } },
    [0x8e] = { "vsar", { VC, V_DST, V_SRC1, V_SRC2 } },
    [0x8f] = { "vcmpad", { CMPOP, VC, V_SRC1, V_SRC2 } },
    [0x94] = { "vbitop", { BITOP, VC, V_DST, V_SRC1, V_SRC2 } },
    [0x98] = { "vmin", { U, VC, V_DST, V_SRC1, V_SRC2 } },
    [0x99] = { "vmax", { U, VC, V_DST, V_SRC1, V_SRC2 } },
    [0x9a] = { "vabs", { U, VC, V_DST, V_SRC1 } },
    [0x9b] = { "vswz", { LOHI, V_DST, V_SRC1, V_SRC2, V_SRC3 } },
    [0x9c] = { "vadd", { U, VC, V_DST, V_SRC1, V_SRC2 } },
    [0x9d] = { "vsub", { U, VC, V_DST, V_SRC1, V_SRC2 } },
    [0x9e] = { "vshr", { VC, V_DST, V_SRC1, V_SRC2 } },
    [0x9f] = { "vadd9", { VC, V_DST, V_SRC1, V_SRC2, V_SRC3 } },
    [0xa4] = { "vclip", { VC, V_DST, V_SRC1, V_SRC2, V_SRC3 } },
    [0xa5] = { "vminabs", { VC, V_DST, V_SRC1, V_SRC2 } },
    [0xa8] = { "vmin", { S, VC, V_DST, V_SRC1, BIMM } },
    [0xa9] = { "vmax", { S, VC, V_DST, V_SRC1, BIMM } },
    [0xaa] = { "vand", { VC, V_DST, V_SRC1, BIMM } },
    [0xab] = { "vxor", { VC, V_DST, V_SRC1, BIMM } },
    [0xac] = { "vadd", { S, VC, V_DST, V_SRC1, BIMM } },
    [0xad] = { "vmov", { VC, V_DST, BIMM } },
    [0xae] = { "vsar", { VC, V_DST, V_SRC1, BIMM } },
    [0xaf] = { "vor", { VC, V_DST, V_SRC1, BIMM } },
    [0xb8] = { "vmin", { U, VC, V_DST, V_SRC1, BIMM } },
    [0xb9] = { "vmax", { U, VC, V_DST, V_SRC1, BIMM } },
    [0xba] = { "mov", { VC, V_DST, V_SRC1 } },
    [0xbb] = { "mov", { V_DST, ALL_VC } },
    [0xbc] = { "vadd", { U, VC, V_DST, V_SRC1, BIMM } },
    [0xbd] = { "vsub", { U, VC, V_DST, V_SRC1, BIMM } },
    [0xbe] = { "vshr", { VC, V_DST, V_SRC1, BIMM } },
    [0xbf] = { "vnop", { END } },
    [0xc0] = { "ldavh", { V_DST, C, A_SRC1, A_SRC2 } },
    [0xc1] = { "ldavv", { V_DST, C, A_SRC1, A_SRC2 } },
    [0xc2] = { "ldas", { R_DST, C, A_SRC1, A_SRC2 } },
    [0xc4] = { "stavh", { V_SRC1, C, A_DST, A_SRC2 } },
    [0xc5] = { "stavv", { V_SRC1, C, A_DST, A_SRC2 } },
    [0xc6] = { "stas", { R_SRC1, C, A_DST, A_SRC2 } },
    [0xca] = { "aadd", { C, A_DST, A_SRC2 } },
    [0xcb] = { "add", { C, A_DST, A_SRC1, A_SRC2 } },
    [0xcc] = { "setlo", { A_DST, IMM16 } },
    [0xcd] = { "sethi", { A_DST, IMM16 } },
    [0xd0] = { "ldavh", { V_DST, C, A_SRC1, IMM } },
    [0xd1] = { "ldavv", { V_DST, C, A_SRC1, IMM } },
    [0xd2] = { "ldas", { R_DST, C, A_SRC1, IMM } },
    [0xd3] = { "bitop", { BITOP, C, A_DST, A_SRC1, A_SRC2 } },
    [0xd4] = { "stavh", { V_SRC1, C, A_DST, IMM } },
    [0xd5] = { "stavv", { V_SRC1, C, A_DST, IMM } },
    [0xd6] = { "stas", { R_SRC1, C, A_DST, IMM } },
    [0xd8] = { "ldvh", { V_DST, C, A_SRC1, UIMM } },
    [0xd9] = { "ldvv", { V_DST, C, A_SRC1, UIMM } },
    [0xda] = { "lds", { R_DST, C, A_SRC1, UIMM } },
    [0xdc] = { "stvh", { V_SRC1, C, A_DST, UIMM } },
    [0xdd] = { "stvv", { V_SRC1, C, A_DST, UIMM } },
    [0xde] = { "sts", { R_SRC1, C, A_DST, UIMM } },
    [0xdf] = { "anop", { END } },
};

/* ---- Writing ---- */

struct line { uint8_t bytes[SECOND_LINE]; uint32_t length; };

static void put(struct line *line, const char *text)
{
    size_t n = strlen(text);

    memcpy(line->bytes + line->length, text, n);
    line->length += (uint32_t)n;
}

static void put_number(struct line *line, const char *before, uint32_t n, uint32_t base)
{
    char digits[8] = ""; /* from its end; the widest field has 16 bits */
    size_t first = sizeof digits - 1;

    do {
        digits[--first] = "0123456789abcdef"[n % base];
        n /= base;
    } while (n > 0);
    put(line, before);
    put(line, digits + first);
}

static void put_signed(struct line *line, uint32_t n, uint32_t width)
{
    if (n >> (width - 1) == 0)
        put_number(line, "0x", n, 16);
    else
        put_number(line, "-0x", (1u << width) - n, 16);
}

static void put_operand(struct line *line, const struct operand *o, uint32_t word)
{
    uint32_t value = word >> o->first & ((1u << o->width) - 1);

    if (o->kind == FLAGS && value > FLAGS_MOST)
        return;
    put(line, " ");
    switch (o->kind) {
    case TEXT: put(line, o->text); break;
    case LO_OR_HI: put(line, value == 0 ? "lo" : "hi"); break;
    case REGISTER:
    case FLAGS: put_number(line, o->text, value, 10); break;
    case UNSIGNED: put_number(line, "0x", value, 16); break;
    case SIGNED: put_signed(line, value, o->width); break;
    }
}

uint32_t second_write_line(uint32_t word, uint8_t *out, size_t out_len, uint32_t *length)
{
    uint32_t op = word >> 24;
    struct line line = { .length = 0 };

    *length = 0;
    if (op < 0x80 || op > 0xdf)
        return 1;
    if (rows[op].name == NULL)
        return 2;
    put(&line, rows[op].name);
    for (const uint8_t *o = rows[op].operands; *o != END; o++)
        put_operand(&line, &operands[*o], word);
    put(&line, "\n");
    if (out_len < line.length)
        return SECOND_SHORT;
    memcpy(out, line.bytes, line.length);
    *length = line.length;
    return 0;
}

/* ---- Reading ---- */

/* A part of the text, which loses what is taken off its front. */
struct part { const uint8_t *at, *end; };

static int empty(struct part p) { return p.at == p.end; }

/* Takes this text, if it stands in front. */
static int take(struct part *p, const char *text)
{
    size_t n = strlen(text);

    if ((size_t)(p->end - p->at) < n || memcmp(p->at, text, n) != 0)
        return 0;
    p->at += n;
    return 1;
}

/* Takes all up to the next space. */
static struct part take_token(struct part *p)
{
    const uint8_t *space = memchr(p->at, ' ', (size_t)(p->end - p->at));
    struct part token = { p->at, space != NULL ? space : p->end };

    p->at = token.end;
    return token;
}

/* Whether the token is this text, and nothing else. */
static int is(struct part token, const char *text)
{
    return take(&token, text) && empty(token);
}

/* 16, which is above all of them, where the byte is no digit. */
static uint32_t digit(uint8_t b)
{
    if (b >= '0' && b <= '9')
        return (uint32_t)(b - '0');
    if (b >= 'a' && b <= 'f')
        return (uint32_t)(b - 'a' + 10);
    return 16;
}

/* Whether the token is digits of the base, without leading zeros, and at most `most`. */
static int read_number(struct part token, uint32_t base, uint32_t most, uint32_t *n)
{
    *n = 0;
    if (empty(token) || (*token.at == '0' && !is(token, "0")))
        return 0;
    for (; !empty(token); token.at++) {
        uint32_t d = digit(*token.at);

        if (d >= base)
            return 0;
        *n = *n * base + d;
        if (*n > most)
            return 0;
    }
    return 1;
}

static int read_signed(struct part token, uint32_t width, uint32_t *value)
{
    uint32_t half = 1u << (width - 1), n;
    int negative = take(&token, "-");

    if (!take(&token, "0x") || !read_number(token, 16, negative ? half : half - 1, &n))
        return 0;
    *value = negative ? 2 * half - n : n;
    return !negative || n > 0;
}

/* Whether the token is the operand, and with which value. */
static int read_operand(struct part token, const struct operand *o, uint32_t *value)
{
    uint32_t most = (1u << o->width) - 1;

    *value = 0;
    switch (o->kind) {
    case TEXT: return is(token, o->text);
    case LO_OR_HI: *value = is(token, "hi") ? 1 : 0; return *value == 1 || is(token, "lo");
    case REGISTER: return take(&token, o->text) && read_number(token, 10, most, value);
    case FLAGS: return take(&token, o->text) && read_number(token, 10, FLAGS_MOST, value);
    case UNSIGNED: return take(&token, "0x") && read_number(token, 16, most, value);
    case SIGNED: break;
    }
    return read_signed(token, o->width, value);
}

/* Whether the rest of a line is these operands, each after a space; and their fields. */
static int read_operands(struct part rest, const uint8_t *list, uint32_t *fields)
{
    *fields = 0;
    for (; *list != END; list++) {
        const struct operand *o = &operands[*list];
        struct part after = rest;
        uint32_t value;

        if (take(&after, " ") && read_operand(take_token(&after), o, &value))
            rest = after;
        else if (o->kind == FLAGS)
            value = FLAGS_ABSENT; /* and what stood there is the next operand's */
        else
            return 0;
        *fields |= value << o->first;
    }
    return empty(rest);
}

uint32_t second_read_line(const uint8_t *text, size_t text_len, uint32_t *word)
{
    uint32_t answer = SECOND_UNNAMED, fields;

    *word = 0;
    if (text_len == 0 || memchr(text, '\n', text_len) != text + text_len - 1)
        return SECOND_UNENDED;
    struct part rest = { text, text + text_len - 1 }, name = take_token(&rest);
    for (uint32_t op = 0x80; op <= 0xdf; op++) {
        if (rows[op].name == NULL || !is(name, rows[op].name))
            continue;
        answer = SECOND_AMISS;
        if (read_operands(rest, rows[op].operands, &fields)) {
            *word = op << 24 | fields;
            return 0;
        }
    }
    return answer;
}
