/* names.c - reads instruction words from standard input and prints their lines, by
 * docs/NAMES.md. */
#include "input.h"
#include "lines.h"

#include <inttypes.h>
#include <stdio.h>
#include <stdlib.h>

/* A word has at least one byte, and another one between it and the next. */
static uint32_t words[INPUT_LONGEST / 2 + 1];
static size_t n_words;

/* 16 where the byte is no hexadecimal digit. */
static uint32_t digit(uint8_t b)
{
    if (b >= '0' && b <= '9')
        return (uint32_t)(b - '0');
    if (b >= 'a' && b <= 'f')
        return (uint32_t)(b - 'a' + 10);
    if (b >= 'A' && b <= 'F')
        return (uint32_t)(b - 'A' + 10);
    return 16;
}

/* Whether the text is a number of 1 to 8 digits, and which. */
static int number(struct text t, uint32_t *value)
{
    size_t i = t.length > 2 && t.bytes[0] == '0' && t.bytes[1] == 'x' ? 2 : 0;

    *value = 0;
    if (t.length == i || t.length - i > 8)
        return 0;
    for (; i < t.length; i++) {
        uint32_t d = digit(t.bytes[i]);

        if (d > 15)
            return 0;
        *value = *value << 4 | d;
    }
    return 1;
}

/* Keeps the word that the text is, or says why it is none and ends the program. */
static void keep(struct text t)
{
    static const char *const reasons[3] = {
        "", "expected an opcode from 0x80 to 0xdf", "expected an opcode that is documented",
    };
    uint8_t line[SECOND_LINE];
    uint32_t word, length;

    if (!number(t, &word)) {
        input_wrong(t);
        fprintf(stderr, ": expected 1 to 8 hexadecimal digits, with or without 0x\n");
        exit(2);
    }
    uint32_t answer = second_write_line(word, line, sizeof line, &length);
    if (answer != 0) {
        input_wrong(t);
        fprintf(stderr, ": refused, %" PRIu32 " (%s)\n", answer, reasons[answer]);
        exit(2);
    }
    words[n_words++] = word;
}

/* Takes all up to the next blank off the line. */
static struct text take(struct text *line)
{
    struct text t = { line->bytes, 0 };

    while (t.length < line->length && !input_blank(t.bytes[t.length]))
        t.length++;
    line->bytes += t.length;
    line->length -= t.length;
    return t;
}

static void keep_all(struct text line)
{
    while (line.length > 0) {
        struct text t = take(&line);

        if (t.length > 0) {
            keep(t);
        } else { /* a blank stands here */
            line.bytes++;
            line.length--;
        }
    }
}

static void print_lines(void)
{
    uint8_t line[SECOND_LINE];
    uint32_t length;

    for (size_t i = 0; i < n_words; i++) {
        second_write_line(words[i], line, sizeof line, &length);
        fwrite(line, 1, length, stdout);
    }
}

/* Nothing is printed before all has been read, so that a fault leaves no output. */
int main(int argc, char **argv)
{
    struct text line;

    input_read("names", argc, argv);
    while (input_line(&line))
        keep_all(line);
    print_lines();
    return fflush(stdout) == 0 && !ferror(stdout) ? 0 : 2;
}
