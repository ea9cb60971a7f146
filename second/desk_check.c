/* desk_check.c - the command check, by docs/LISTING.md: reads EXPECTED, runs the listing
 * and says which lines differ. */
#include "desk.h"

#include <inttypes.h>
#include <string.h>

enum { EXPECTED_SHOWN = 128 };

/* ---- A line of EXPECTED ---- */

struct expectation { struct thing thing; struct value value; };

/* Every text is looked at as a number before they are counted, also those too many. */
static int read_sixteen_numbers(struct line *line, uint32_t *numbers)
{
    uint32_t number;
    size_t n = 0;

    for (; line->rest.length > 0; n++) {
        if (!read_number(line, UINT32_MAX, "expected a number", &number))
            return 0;
        if (n < BANKS)
            numbers[n] = number;
    }
    return n == BANKS ? 1 : fault(line, line->whole, "expected 16 numbers");
}

static int read_count(struct line *line, enum kind kind, struct expectation *e)
{
    e->thing = (struct thing){ kind, 0, 0 };
    if (kind == THE_BANKS)
        return read_sixteen_numbers(line, e->value.numbers);
    return read_number(line, UINT32_MAX, "expected a number", e->value.numbers) &&
           end_of_line(line);
}

static int read_expectation(struct line *line, struct expectation *e)
{
    static const struct { const char *name; enum kind kind; } counts[] = {
        { "answer", THE_ANSWER }, { "steps", THE_STEPS }, { "cells", THE_CELLS },
        { "clipped", THE_CLIPPED }, { "banks", THE_BANKS },
    };
    struct text first = next_text(line);

    if (is_register(first, &e->thing))
        return read_value(line, e->thing.kind, &e->value);
    if (is(first, "row") || is(first, "column"))
        return read_row(line, is(first, "row") ? A_ROW : A_COLUMN, &e->thing) &&
               read_sixteen(line, e->value.bytes);
    if (is(first, "bank"))
        return read_bank(line, &e->thing) && read_cell(line, &e->thing) &&
               read_sixteen(line, e->value.bytes);
    for (size_t i = 0; i < sizeof counts / sizeof counts[0]; i++)
        if (is(first, counts[i].name))
            return read_count(line, counts[i].kind, e);
    return fault(line, first, "expected a register, row, column, bank, answer, steps, cells, "
                              "clipped, banks or a dot line");
}

/* ---- All of EXPECTED ---- */

/* What a first look finds: the start, if there is one, the lines that are compared, and
 * whether one of them is an answer. The lines are read again to be compared. */
struct expected { struct start start; int starts, answered; size_t compared; };

static int is_dot_line(const struct line *line) { return line->whole.bytes[0] == '.'; }

static int read_dot_line(struct line *line, struct expected *expected)
{
    struct text first = next_text(line);
    start_reader *reader = start_line(first);

    if (reader == NULL)
        return fault(line, first, "expected .set, .bytes, .fill or .budget");
    if (expected->compared > 0)
        return fault(line, first, "expected before the first line to compare");
    expected->starts = 1;
    return reader(line, &expected->start);
}

static int read_expected_line(struct line *line, struct expected *expected)
{
    struct expectation e;

    if (is_dot_line(line))
        return read_dot_line(line, expected);
    if (!read_expectation(line, &e))
        return 0;
    expected->compared++;
    if (e.thing.kind == THE_ANSWER)
        expected->answered = 1;
    return 1;
}

static int read_expected(struct input *in, const char *file, struct expected *expected)
{
    struct line line;

    memset(expected, 0, sizeof *expected);
    empty_start(&expected->start);
    if (!read_file(in, "check", file))
        return 0;
    while (next_line(in, &line))
        if (!read_expected_line(&line, expected))
            return 0;
    return expected->compared > 0 ? 1 : refuse_input(in, "expected a line to compare");
}

/* ---- Comparing ---- */

static int holds_row(enum way way, const struct expectation *e, const uint8_t *ds)
{
    struct access x = access_at(way, e->thing.number, e->thing.more);
    uint8_t found[16];

    fetch(&x, ds, found);
    return memcmp(found, e->value.bytes, 16) == 0;
}

static int holds(const struct expectation *e, const struct outcome *o)
{
    uint32_t n = e->thing.number;

    switch (e->thing.kind) {
    case IN_A: case IN_R: case IN_C: case IN_VC:
        return (register_word(&o->state, &e->thing) & e->value.bits) == e->value.word;
    case IN_V: return memcmp(o->state.v + 16 * n, e->value.bytes, 16) == 0;
    case A_ROW: return holds_row(ROW, e, o->state.ds);
    case A_COLUMN: return holds_row(COLUMN, e, o->state.ds);
    case EIGHT_CELLS:
        return memcmp(o->state.ds + 512 * n + 2 * e->thing.more, e->value.bytes, 16) == 0;
    case THE_ANSWER: return o->answer == e->value.numbers[0];
    case THE_STEPS: return o->steps == e->value.numbers[0];
    case THE_CELLS: return o->cells == e->value.numbers[0];
    case THE_CLIPPED: return o->clipped == e->value.numbers[0];
    case THE_BANKS: return memcmp(o->banks, e->value.numbers, sizeof o->banks) == 0;
    case A_BANK: break; /* a whole bank is shown, but never expected */
    }
    return 0;
}

static void tell_difference(size_t number, struct text line, const struct thing *thing,
                            const struct outcome *outcome)
{
    printf("line %zu: expected ", number);
    show_text(stdout, line, EXPECTED_SHOWN);
    printf("\nline %zu: found ", number);
    show_thing(thing, outcome);
}

/* The answer that is expected without a line. Returns how many differ, 1 or 0. */
static size_t compare_answer(const struct outcome *outcome)
{
    static const char unwritten[] = "answer 0";
    struct thing answer = { THE_ANSWER, 0, 0 };

    if (outcome->answer == SECOND_DONE)
        return 0;
    tell_difference(0, (struct text){ (const uint8_t *)unwritten, sizeof unwritten - 1 }, &answer,
                    outcome);
    return 1;
}

/* The lines were found good before. Returns how many differ. */
static size_t compare_lines(struct input *in, const struct outcome *outcome)
{
    struct line line;
    size_t differ = 0;

    rewind_lines(in);
    while (next_line(in, &line)) {
        struct expectation e;

        if (is_dot_line(&line) || !read_expectation(&line, &e) || holds(&e, outcome))
            continue;
        tell_difference(in->line, line.whole, &e.thing, outcome);
        differ++;
    }
    return differ;
}

enum status check(const char *file, const char *expected_file)
{
    static struct input in;
    static struct listing listing;
    static struct expected expected;
    static struct outcome outcome;
    size_t differ = 0;

    if (!read_listing(&in, "check", file, &listing) ||
        !read_expected(&in, expected_file, &expected))
        return STATUS_INPUT;
    run_steps(&listing, expected.starts ? &expected.start : &listing.start, 0, &outcome);
    if (!expected.answered)
        differ += compare_answer(&outcome);
    differ += compare_lines(&in, &outcome);
    size_t all = expected.compared + (expected.answered ? 0 : 1);
    if (differ == 0)
        printf("%s: as expected, %zu compared\n", file, all);
    else
        printf("%s: %zu of %zu differ\n", file, differ, all);
    return differ == 0 ? STATUS_DONE : STATUS_FAILED;
}
