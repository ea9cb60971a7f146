/* desk_read.c - what the lines of a listing and of EXPECTED have in common, by
 * docs/LISTING.md: registers and their values, rows, columns and banks, and the dot lines
 * that set the start. */
#include "desk.h"

#include <string.h>

enum { ADDRESSES = 0x2000 };

/* ---- Registers ---- */

/* A part of a word: the field from bit `first`, the highest number that it is given, and
 * what is said of another text. A stride is given in bytes and held as its code. */
struct part { const char *name; uint32_t first, most; const char *expected; };

#define UP_TO_FFFF "expected a number up to 0xffff"
#define ZERO_OR_ONE "expected 0 or 1"

static const struct part parts_of_a[] = {
    { "addr", 0, 0xffff, UP_TO_FFFF },
    { "limit", 16, 0x3fff, "expected a number up to 0x3fff" },
    { "stride", 30, 3, NULL },
};
static const struct part parts_of_c[] = {
    { "sign", 8, 1, ZERO_OR_ONE },
    { "zero", 9, 1, ZERO_OR_ONE },
    { "end", 10, 1, ZERO_OR_ONE },
};
static const struct part parts_of_vc[] = {
    { "signs", 0, 0xffff, UP_TO_FFFF },
    { "zeros", 16, 0xffff, UP_TO_FFFF },
};

/* By kind; with what is said where the value of a word is missing. Those of $v are bytes. */
static const struct file {
    const char *name;
    uint32_t count;
    const struct part *parts;
    size_t n_parts;
    const char *expected;
} files[] = {
    [IN_A] = { "$a", SECOND_A, parts_of_a, 3,
               "expected a word, or addr, limit, stride and their values" },
    [IN_R] = { "$r", SECOND_R, NULL, 0, "expected a word" },
    [IN_C] = { "$c", SECOND_C, parts_of_c, 3,
               "expected a word, or sign, zero, end and their values" },
    [IN_VC] = { "$vc", SECOND_VC, parts_of_vc, 2,
                "expected a word, or signs, zeros and their values" },
    [IN_V] = { "$v", SECOND_V / 16, NULL, 0, NULL },
};

/* Whether the text is the name and a decimal number below the count, without leading
 * zeros: a number below 32 has two digits at most. */
static int is_numbered(struct text text, const char *name, uint32_t count, uint32_t *number)
{
    size_t n = strlen(name);

    if (text.length <= n || text.length > n + 2 || memcmp(text.bytes, name, n) != 0)
        return 0;
    text.bytes += n;
    text.length -= n;
    if (text.bytes[0] == '0' && text.length > 1)
        return 0;
    return is_number(text, number) && *number < count;
}

int is_register(struct text text, struct thing *thing)
{
    for (int kind = IN_A; kind <= IN_V; kind++)
        if (is_numbered(text, files[kind].name, files[kind].count, &thing->number)) {
            thing->kind = (enum kind)kind;
            thing->more = 0;
            return 1;
        }
    return 0;
}

/* ---- Values ---- */

static int read_part_value(struct line *line, const struct part *part, struct value *value)
{
    uint32_t n, bits = part->most << part->first;

    if (part->expected == NULL ? !read_stride(line, &n)
                               : !read_number(line, part->most, part->expected, &n))
        return 0;
    value->word = (value->word & ~bits) | n << part->first; /* the later mention holds */
    value->bits |= bits;
    return 1;
}

static int read_part(struct line *line, const struct file *file, struct value *value)
{
    struct text name = next_text(line);

    for (size_t i = 0; i < file->n_parts; i++)
        if (is(name, file->parts[i].name))
            return read_part_value(line, &file->parts[i], value);
    return fault(line, name, file->expected);
}

/* The whole word, or parts. */
static int read_word_value(struct line *line, const struct file *file, struct value *value)
{
    struct line behind = *line;

    if (is_number(next_text(&behind), &value->word)) {
        value->bits = UINT32_MAX;
        return end_of_line(&behind);
    }
    value->word = 0;
    do {
        if (!read_part(line, file, value))
            return 0;
    } while (line->rest.length > 0);
    return 1;
}

/* Every text is looked at as a byte before they are counted, also those too many. */
int read_sixteen(struct line *line, uint8_t *bytes)
{
    struct line behind = *line;
    int all = is(next_text(&behind), "all");
    size_t n = 0;
    uint8_t byte = 0;

    if (all)
        *line = behind;
    for (; line->rest.length > 0; n++) {
        if (!read_byte(line, &byte))
            return 0;
        if (n < 16)
            bytes[n] = byte;
    }
    if (n == 1)
        memset(bytes, byte, 16);
    else if (all || n != 16)
        return fault(line, line->whole, "expected 16 bytes, or one for all");
    return 1;
}

int read_value(struct line *line, enum kind kind, struct value *value)
{
    memset(value, 0, sizeof *value);
    return kind == IN_V ? read_sixteen(line, value->bytes)
                        : read_word_value(line, &files[kind], value);
}

/* ---- Rows, columns and banks ---- */

static int read_address(struct line *line, uint32_t *address)
{
    return read_number(line, ADDRESSES - 1, "expected an address: a number up to 0x1fff",
                       address);
}

/* A word that has to stand here. */
static int read_name(struct line *line, const char *name, const char *expected)
{
    struct text t = next_text(line);

    return is(t, name) ? 1 : fault(line, t, expected);
}

int read_row(struct line *line, enum kind kind, struct thing *thing)
{
    thing->kind = kind;
    return read_address(line, &thing->number) &&
           read_name(line, "stride", "expected as in: row 0x40 stride 0x20") &&
           read_stride(line, &thing->more);
}

int read_bank(struct line *line, struct thing *thing)
{
    *thing = (struct thing){ A_BANK, 0, 0 };
    return read_number(line, BANKS - 1, "expected a bank: 0 to 15", &thing->number);
}

int read_cell(struct line *line, struct thing *thing)
{
    thing->kind = EIGHT_CELLS;
    return read_name(line, "cell", "expected as in: bank 3 cell 16") &&
           read_number(line, 248, "expected a cell: 0 to 248", &thing->more);
}

/* ---- Dot lines that set the start ---- */

void empty_start(struct start *start)
{
    memset(start, 0, sizeof *start);
    start->budget = UINT32_MAX;
}

static void put(struct state *s, const struct thing *thing, const struct value *value)
{
    uint32_t *const words[] = { [IN_A] = s->a, [IN_R] = s->r, [IN_C] = s->c, [IN_VC] = s->vc };

    if (thing->kind == IN_V) {
        memcpy(s->v + 16 * thing->number, value->bytes, 16);
        return;
    }
    uint32_t *word = &words[thing->kind][thing->number];
    *word = (*word & ~value->bits) | value->word;
}

static int read_set(struct line *line, struct start *start)
{
    struct text name = next_text(line);
    struct thing thing;
    struct value value;

    if (!is_register(name, &thing))
        return fault(line, name, "expected a register: $a0 to $a31, $r0 to $r31, "
                                 "$v0 to $v31, $c0 to $c3 or $vc0 to $vc3");
    if (!read_value(line, thing.kind, &value))
        return 0;
    put(&start->state, &thing, &value);
    return 1;
}

static int read_bytes(struct line *line, struct start *start)
{
    static const char form[] = "expected as in: .bytes stride 0x20 at 0x100 00 01 02";
    uint32_t code, address;
    uint8_t byte;

    if (!read_name(line, "stride", form) || !read_stride(line, &code) ||
        !read_name(line, "at", form) || !read_address(line, &address))
        return 0;
    do {
        struct line before = *line;

        if (!read_byte(line, &byte))
            return 0;
        if (address == ADDRESSES)
            return fault(line, next_text(&before), "expected no byte beyond address 0x1fff");
        start->state.ds[store_index(address++, code)] = byte;
    } while (line->rest.length > 0);
    return 1;
}

static void fill_banks(uint8_t *ds)
{
    for (uint32_t i = 0; i < SECOND_DS; i++)
        ds[i] = (uint8_t)(i / 512);
}

static void fill_addresses(uint8_t *ds, uint32_t code)
{
    for (uint32_t address = 0; address < ADDRESSES; address++)
        ds[store_index(address, code)] = (uint8_t)(address & 0xff);
}

static int read_fill(struct line *line, struct start *start)
{
    struct text t = next_text(line);
    uint8_t *ds = start->state.ds, byte;
    uint32_t code;

    if (is(t, "address")) {
        if (!read_name(line, "stride", "expected as in: .fill address stride 0x40") ||
            !read_stride(line, &code))
            return 0;
        fill_addresses(ds, code);
    } else if (is(t, "bank")) {
        fill_banks(ds);
    } else if (is_byte(t, &byte)) {
        memset(ds, byte, SECOND_DS);
    } else {
        return fault(line, t, "expected bank, address or a byte");
    }
    return end_of_line(line);
}

static int read_budget(struct line *line, struct start *start)
{
    return read_number(line, UINT32_MAX, "expected a number", &start->budget) &&
           end_of_line(line);
}

start_reader *start_line(struct text first)
{
    static const struct { const char *name; start_reader *reader; } lines[] = {
        { ".set", read_set }, { ".bytes", read_bytes },
        { ".fill", read_fill }, { ".budget", read_budget },
    };

    for (size_t i = 0; i < sizeof lines / sizeof lines[0]; i++)
        if (is(first, lines[i].name))
            return lines[i].reader;
    return NULL;
}
