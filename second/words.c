/* words.c - reads lines of names from standard input and prints their words, by
 * docs/NAMES.md. */
#include "input.h"
#include "lines.h"

#include <inttypes.h>
#include <stdio.h>
#include <stdlib.h>
#include <string.h>

/* A line that is not passed over has at least one byte, and its line feed before the
 * next. */
static uint32_t words[INPUT_LONGEST / 2 + 1];
static size_t n_words;

/* What is left of a line, and room for a line feed. */
static uint8_t left[INPUT_LONGEST + 1];

/* Leaves out the blanks at both ends, and makes one space of those between. */
static struct text squeeze(struct text line)
{
    size_t n = 0;
    int blank = 0;

    for (size_t i = 0; i < line.length; i++) {
        if (input_blank(line.bytes[i])) {
            blank = 1;
            continue;
        }
        if (blank && n > 0)
            left[n++] = ' ';
        blank = 0;
        left[n++] = line.bytes[i];
    }
    return (struct text){ left, n };
}

/* All up to the first space. */
static struct text name_of(struct text t)
{
    const uint8_t *space = memchr(t.bytes, ' ', t.length);

    return (struct text){ t.bytes, space != NULL ? (size_t)(space - t.bytes) : t.length };
}

/* Whether a line, which ends with its line feed, has the name. */
static int has_name(const uint8_t *line, uint32_t length, struct text name)
{
    return name.length < length && memcmp(line, name.bytes, name.length) == 0 &&
           (line[name.length] == ' ' || line[name.length] == '\n');
}

/* Shows a line of each opcode with the name, its fields 0. */
static void show_expected(struct text name)
{
    const char *before = "expected as in: ";

    for (uint32_t op = 0x80; op <= 0xdf; op++) {
        uint8_t line[SECOND_LINE];
        uint32_t length;

        second_write_line(op << 24, line, sizeof line, &length);
        if (!has_name(line, length, name))
            continue;
        fprintf(stderr, "%s%.*s", before, (int)length - 1, (const char *)line);
        before = " or: ";
    }
}

/* Says why what is left of a line is refused, and ends the program. */
static void refuse(struct text t, uint32_t answer)
{
    input_wrong(t);
    fprintf(stderr, ": refused, %" PRIu32 " (", answer);
    if (answer == SECOND_UNNAMED)
        fprintf(stderr, "expected the name of an instruction");
    else
        show_expected(name_of(t));
    fprintf(stderr, ")\n");
    exit(2);
}

static void keep(struct text line)
{
    struct text t = squeeze(line);

    if (t.length == 0)
        return;
    left[t.length] = '\n';
    uint32_t answer = second_read_line(left, t.length + 1, &words[n_words]);
    if (answer != 0)
        refuse(t, answer);
    n_words++;
}

static void print_words(void)
{
    for (size_t i = 0; i < n_words; i++)
        printf("%08" PRIx32 "\n", words[i]);
}

/* Nothing is printed before all has been read, so that a fault leaves no output. */
int main(int argc, char **argv)
{
    struct text line;

    input_read("words", argc, argv);
    while (input_line(&line))
        keep(line);
    print_words();
    return fflush(stdout) == 0 && !ferror(stdout) ? 0 : 2;
}
