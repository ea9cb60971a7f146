/* desk_step.c - a step, with what is said of a wrong one, the .show lines, and with these
 * the whole listing, by docs/LISTING.md. */
#include "desk.h"
#include "lines.h"

#include <string.h>

/* ---- A line of names ---- */

/* All up to the first space. */
static struct text name_of(struct text line)
{
    const uint8_t *space = memchr(line.bytes, ' ', line.length);

    if (space != NULL)
        line.length = (size_t)(space - line.bytes);
    return line;
}

/* Says a line of each opcode with the name, its other bits 0. */
static void say_expected(struct text name)
{
    const char *before = "expected as in: ";

    for (uint32_t op = 0x80; op <= 0xdf; op++) {
        uint8_t bytes[SECOND_LINE];
        uint32_t length;

        if (second_write_line(op << 24, bytes, sizeof bytes, &length) != 0)
            continue;
        struct text line = { bytes, length - 1 }, its = name_of(line);
        if (its.length != name.length || memcmp(its.bytes, name.bytes, name.length) != 0)
            continue;
        fprintf(stderr, "%s%.*s", before, (int)line.length, (const char *)line.bytes);
        before = " or: ";
    }
    fputc('\n', stderr);
}

/* The instruction that the text is: all of a line before @. */
static int read_instruction(const struct line *line, struct text text, uint32_t *word)
{
    static uint8_t fed[INPUT_LONGEST + 1]; /* the text and a line feed */

    if (is_word(text, word))
        return 1;
    memcpy(fed, text.bytes, text.length);
    fed[text.length] = '\n';
    uint32_t answer = second_read_line(fed, text.length + 1, word);
    if (answer == 0)
        return 1;
    if (answer == SECOND_UNNAMED)
        return fault(line, text, "expected the name of an instruction, "
                                 "or a word of eight hexadecimal digits");
    fault_begins(line, text);
    say_expected(name_of(text));
    return 0;
}

/* ---- A step ---- */

/* Takes all up to the text @, and that too; returns whether it was there. */
static int take_instruction(struct line *line, struct text *text)
{
    *text = (struct text){ line->rest.bytes, 0 };
    while (line->rest.length > 0) {
        struct text t = next_text(line);

        if (is(t, "@"))
            return 1;
        text->length = (size_t)(t.bytes + t.length - text->bytes);
    }
    return 0;
}

int read_step(struct line *line, struct step *step)
{
    struct text instruction;
    int sided = take_instruction(line, &instruction);

    if (!read_instruction(line, instruction, &step->word))
        return 0;
    step->side = step->word >> 9 & 31; /* SRC2 */
    step->mask = 0;
    if (!sided)
        return 1;
    if (!read_number(line, UINT32_MAX, "expected a side index: a number", &step->side))
        return 0;
    if (line->rest.length == 0)
        return 1;
    return read_number(line, UINT32_MAX, "expected a side mask word: a number", &step->mask) &&
           end_of_line(line);
}

/* ---- A listing ---- */

/* A whole bank, or eight cells of it. */
static int read_shown_bank(struct line *line, struct thing *thing)
{
    if (!read_bank(line, thing))
        return 0;
    struct line behind = *line;
    return is(next_text(&behind), "cell") ? read_cell(line, thing) : 1;
}

static int read_shown(struct line *line, struct thing *thing)
{
    struct text t = next_text(line);

    if (is(t, "row") || is(t, "column"))
        return read_row(line, is(t, "row") ? A_ROW : A_COLUMN, thing);
    if (is(t, "bank"))
        return read_shown_bank(line, thing);
    if (is_register(t, thing))
        return 1;
    return fault(line, t, "expected a register, row, column or bank");
}

/* A line that is one too many is looked at first like any other. */
static int read_show_line(struct line *line, struct listing *listing)
{
    struct thing thing;

    if (!read_shown(line, &thing) || !end_of_line(line))
        return 0;
    if (listing->n_shows == SHOWS_MOST)
        return fault(line, line->whole, "expected at most 64 .show lines");
    listing->shows[listing->n_shows++] = thing;
    return 1;
}

static int read_step_line(struct line *line, struct listing *listing)
{
    struct step step;

    if (!read_step(line, &step))
        return 0;
    if (listing->n_steps == STEPS_MOST)
        return fault(line, line->whole, "expected at most 1024 steps");
    listing->steps[listing->n_steps++] = step;
    return 1;
}

static int read_listing_line(struct line *line, struct listing *listing)
{
    struct line behind = *line;
    struct text first = next_text(&behind);

    if (first.bytes[0] != '.')
        return read_step_line(line, listing);
    if (is(first, ".show"))
        return read_show_line(&behind, listing);
    start_reader *reader = start_line(first);
    if (reader == NULL)
        return fault(line, first, "expected .set, .bytes, .fill, .show or .budget");
    if (listing->n_steps > 0)
        return fault(line, first, "expected before the first step");
    return reader(&behind, &listing->start);
}

int read_listing(struct input *in, const char *command, const char *file,
                 struct listing *listing)
{
    struct line line;
    int any = 0;

    empty_start(&listing->start);
    listing->n_steps = listing->n_shows = 0;
    if (!read_file(in, command, file))
        return 0;
    for (; next_line(in, &line); any = 1)
        if (!read_listing_line(&line, listing))
            return 0;
    return any ? 1 : refuse_input(in, "expected a step or a dot line");
}
