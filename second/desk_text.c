/* desk_text.c - the input of the program desk, by docs/LISTING.md: files and arguments,
 * their lines without comments, the texts of a line, numbers, and what is said of errors. */
#include "desk.h"

#include <string.h>

enum { ARGUMENT_LONGEST = 4096 };

/* ---- What is said of errors ---- */

void show_text(FILE *to, struct text text, size_t most)
{
    for (size_t i = 0; i < text.length && i < most; i++)
        fputc(text.bytes[i] < 0x20 || text.bytes[i] > 0x7e ? '?' : text.bytes[i], to);
    if (text.length > most)
        fputs("..", to);
}

/* explain has no file to name. */
static void name_input(const struct input *in)
{
    fprintf(stderr, "%s: ", in->command);
    if (in->file != NULL)
        fprintf(stderr, "%s: ", in->file);
}

int refuse_input(const struct input *in, const char *message)
{
    name_input(in);
    fprintf(stderr, "%s\n", message);
    return 0;
}

void fault_begins(const struct line *line, struct text text)
{
    name_input(line->in);
    if (line->in->file != NULL)
        fprintf(stderr, "line %zu: ", line->in->line);
    show_text(stderr, text.length > 0 ? text : line->whole, FAULT_SHOWN);
    fputs(": ", stderr);
}

int fault(const struct line *line, struct text text, const char *message)
{
    fault_begins(line, text);
    fprintf(stderr, "%s\n", message);
    return 0;
}

/* ---- Files and arguments ---- */

/* Whether all could be read, or more than there may be. A folder can be opened, but not
 * read. */
static int read_all(struct input *in, FILE *from)
{
    if (from == NULL)
        return 0;
    in->length = fread(in->bytes, 1, sizeof in->bytes, from);
    int well = !ferror(from);
    if (from != stdin)
        fclose(from);
    return well;
}

int read_file(struct input *in, const char *command, const char *file)
{
    in->command = command;
    in->file = file;
    rewind_lines(in);
    if (!read_all(in, strcmp(file, "-") == 0 ? stdin : fopen(file, "rb")))
        return refuse_input(in, "cannot be read");
    if (in->length > INPUT_LONGEST)
        return refuse_input(in, "longer than 65535 bytes");
    return 1;
}

/* ---- Lines ---- */

static int is_blank(uint8_t b) { return b == ' ' || b == '\t' || b == '\r'; }

static int starts_comment(uint8_t b) { return b == '#' || b == ';'; }

/* Leaves out the comment and the blanks at both ends, and makes one space of those
 * between two texts. */
static void squeeze(struct input *in, struct text from, struct line *line)
{
    size_t n = 0;
    int blank = 0;

    for (size_t i = 0; i < from.length && !starts_comment(from.bytes[i]); i++) {
        if (is_blank(from.bytes[i])) {
            blank = 1;
            continue;
        }
        if (blank && n > 0)
            in->left[n++] = ' ';
        blank = 0;
        in->left[n++] = from.bytes[i];
    }
    line->in = in;
    line->whole = line->rest = (struct text){ in->left, n };
}

/* Takes all up to the next line feed, and that too. */
static struct text take_line(struct input *in)
{
    struct text t = { in->bytes + in->met, in->length - in->met };
    const uint8_t *feed = memchr(t.bytes, '\n', t.length);

    if (feed != NULL)
        t.length = (size_t)(feed - t.bytes);
    in->met += t.length + (feed != NULL);
    in->line++;
    return t;
}

int next_line(struct input *in, struct line *line)
{
    while (in->met < in->length) {
        squeeze(in, take_line(in), line);
        if (line->whole.length > 0)
            return 1;
    }
    return 0;
}

void rewind_lines(struct input *in) { in->met = in->line = 0; }

/* A line without a text is a line here: there is no other one to go on with. */
int read_argument(struct input *in, const char *argument, struct line *line)
{
    in->command = "explain";
    in->file = NULL;
    rewind_lines(in);
    in->length = strlen(argument);
    if (in->length > ARGUMENT_LONGEST)
        return refuse_input(in, "longer than 4096 bytes");
    memcpy(in->bytes, argument, in->length);
    squeeze(in, take_line(in), line);
    return 1;
}

/* ---- Texts ---- */

struct text next_text(struct line *line)
{
    struct text t = line->rest;
    const uint8_t *space = memchr(t.bytes, ' ', t.length);

    if (space != NULL)
        t.length = (size_t)(space - t.bytes);
    line->rest.bytes += t.length + (space != NULL);
    line->rest.length -= t.length + (space != NULL);
    return t;
}

int is(struct text text, const char *name)
{
    return text.length == strlen(name) && memcmp(text.bytes, name, text.length) == 0;
}

int end_of_line(struct line *line)
{
    if (line->rest.length == 0)
        return 1;
    return fault(line, next_text(line), "expected the end of the line");
}

/* ---- Numbers ---- */

/* 16, which is above all of them, where the byte is no digit. */
static uint32_t digit(uint8_t b)
{
    if (b >= '0' && b <= '9')
        return (uint32_t)(b - '0');
    if (b >= 'a' && b <= 'f')
        return (uint32_t)(b - 'a' + 10);
    if (b >= 'A' && b <= 'F')
        return (uint32_t)(b - 'A' + 10);
    return 16;
}

/* Takes 0x off the front, if it stands there. */
static int take_0x(struct text *text)
{
    if (text->length < 2 || text->bytes[0] != '0' || text->bytes[1] != 'x')
        return 0;
    text->bytes += 2;
    text->length -= 2;
    return 1;
}

/* Whether the text is `least` to `most` digits of the base, and below 2^32. Ten digits
 * or less cannot run over 64 bits. */
static int is_digits(struct text text, uint32_t base, size_t least, size_t most,
                     uint32_t *value)
{
    uint64_t n = 0;

    if (text.length < least || text.length > most)
        return 0;
    for (size_t i = 0; i < text.length; i++) {
        uint32_t d = digit(text.bytes[i]);

        if (d >= base)
            return 0;
        n = n * base + d;
    }
    *value = (uint32_t)n;
    return n <= UINT32_MAX;
}

int is_number(struct text text, uint32_t *value)
{
    return take_0x(&text) ? is_digits(text, 16, 1, 8, value)
                          : is_digits(text, 10, 1, 10, value);
}

int is_byte(struct text text, uint8_t *value)
{
    uint32_t n;

    take_0x(&text);
    if (!is_digits(text, 16, 2, 2, &n))
        return 0;
    *value = (uint8_t)n;
    return 1;
}

int is_word(struct text text, uint32_t *value)
{
    take_0x(&text);
    return is_digits(text, 16, 8, 8, value);
}

int read_number(struct line *line, uint32_t most, const char *expected, uint32_t *value)
{
    struct text t = next_text(line);

    if (!is_number(t, value) || *value > most)
        return fault(line, t, expected);
    return 1;
}

int read_stride(struct line *line, uint32_t *code)
{
    struct text t = next_text(line);
    uint32_t n;

    if (is_number(t, &n))
        for (*code = 0; *code < 4; ++*code)
            if (n == stride_of(*code))
                return 1;
    return fault(line, t, "expected a stride: 0x10, 0x20, 0x40 or 0x80");
}

int read_byte(struct line *line, uint8_t *value)
{
    struct text t = next_text(line);

    if (!is_byte(t, value))
        return fault(line, t, "expected a byte: two hexadecimal digits");
    return 1;
}
