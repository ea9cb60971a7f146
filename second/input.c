/* input.c - the input of the programs names and words, by docs/NAMES.md. */
#include "input.h"

#include <stdio.h>
#include <stdlib.h>
#include <string.h>

enum { SHOWN = 64 };

static const char *program, *file;
static uint8_t bytes[INPUT_LONGEST + 1]; /* one more, which is there to be found too much */
static size_t length, met;
static unsigned long line_number;

/* Says what is wrong with the input as a whole and ends the program. */
static void refuse(const char *what)
{
    fprintf(stderr, "%s: %s: %s\n", program, file, what);
    exit(2);
}

void input_read(const char *name, int argc, char **argv)
{
    if (argc != 2) {
        fprintf(stderr, "usage: %s FILE, FILE the name of what standard input is\n", name);
        exit(2);
    }
    program = name;
    file = argv[1];
    length = fread(bytes, 1, sizeof bytes, stdin);
    if (ferror(stdin))
        refuse("cannot be read");
    if (length > INPUT_LONGEST)
        refuse("longer than 65535 bytes");
}

static int starts_comment(uint8_t b) { return b == '#' || b == ';'; }

/* Takes the next line off the input, with its comment. */
static struct text whole_line(void)
{
    struct text line = { bytes + met, length - met };
    const uint8_t *feed = memchr(line.bytes, '\n', line.length);

    if (feed != NULL)
        line.length = (size_t)(feed - line.bytes);
    met += line.length + (feed != NULL);
    line_number++;
    return line;
}

int input_line(struct text *line)
{
    size_t n = 0;

    if (met == length)
        return 0;
    *line = whole_line();
    while (n < line->length && !starts_comment(line->bytes[n]))
        n++;
    line->length = n;
    return 1;
}

int input_blank(uint8_t b) { return b == ' ' || b == '\t' || b == '\r'; }

void input_wrong(struct text text)
{
    fprintf(stderr, "%s: %s: line %lu: ", program, file, line_number);
    for (size_t i = 0; i < text.length && i < SHOWN; i++)
        fputc(text.bytes[i] < 0x20 || text.bytes[i] > 0x7e ? '?' : text.bytes[i], stderr);
    if (text.length > SHOWN)
        fputs("..", stderr);
}
