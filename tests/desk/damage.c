/* damage.c - writes listings, good ones and damaged ones, as files to be given to both programs.

   damage FOLDER SEED N DOTS STEPS.. : N files FOLDER/1 to FOLDER/N. Each has up to five lines of DOTS and then up to six of the STEPS files, and
   three of four have up to four bytes changed, put in or taken out. What is drawn depends on the seed alone. */
#include <stdint.h>
#include <stdio.h>
#include <stdlib.h>
#include <string.h>

enum { LINES = 4096, TEXT = 8192 };

struct lesson { char *line[LINES]; size_t lines; };

struct text { char bytes[TEXT]; size_t length; };

static uint64_t seed;

/* Marsaglia's xorshift of 64 bits, the high half. */
static uint32_t drawn(uint32_t below)
{
    seed ^= seed << 13;
    seed ^= seed >> 7;
    seed ^= seed << 17;
    return (uint32_t)(seed >> 32) % below;
}

static void give_up(const char *what)
{
    perror(what);
    exit(2);
}

static void learn(struct lesson *lesson, const char *file)
{
    char line[256];
    FILE *f = fopen(file, "r");

    if (f == NULL)
        give_up(file);
    while (fgets(line, sizeof line, f) != NULL) {
        char *copy = malloc(strlen(line) + 1);
        if (copy == NULL || lesson->lines == LINES)
            give_up(file);
        lesson->line[lesson->lines++] = strcpy(copy, line);
    }
    fclose(f);
}

static void add_lines(struct text *text, const struct lesson *lesson, uint32_t most)
{
    for (uint32_t k = drawn(most + 1); k > 0; k--) {
        const char *line = lesson->line[drawn((uint32_t)lesson->lines)];
        memcpy(text->bytes + text->length, line, strlen(line));
        text->length += strlen(line);
    }
}

/* A byte that means something in a listing, mostly: blanks, line feeds, what comments, registers and dot lines begin with, digits, letters of names. */
static char byte(void)
{
    static const char often[] = "  \t\r\n\n##;;$$..@@0001122335789abcdefx0X-,_AFZsutvrlioh~\001\177\200\377";

    return drawn(16) == 0 ? (char)drawn(256) : often[drawn(sizeof often - 1)];
}

/* One byte changed, put in, or taken out; or a part of the text said twice. */
static void damage(struct text *text)
{
    uint32_t at = drawn((uint32_t)text->length + 1), way = drawn(8);
    size_t left = text->length - at, part = left < 9 ? left : 9;

    if (way == 0 && part > 0 && text->length + part <= TEXT) {
        memmove(text->bytes + at + part, text->bytes + at, left);
        text->length += part;
    } else if (way <= 3 && text->length < TEXT) {
        memmove(text->bytes + at + 1, text->bytes + at, left);
        text->bytes[at] = byte();
        text->length++;
    } else if (way <= 5 && left > 0) {
        text->bytes[at] = byte();
    } else if (left > 0) {
        memmove(text->bytes + at, text->bytes + at + 1, left - 1);
        text->length--;
    }
}

static void write_file(const char *folder, unsigned long i, const struct text *text)
{
    char name[TEXT];
    FILE *f;

    snprintf(name, sizeof name, "%s/%lu", folder, i);
    f = fopen(name, "w");
    if (f == NULL || fwrite(text->bytes, 1, text->length, f) != text->length || fclose(f) != 0)
        give_up(name);
}

int main(int argc, char **argv)
{
    static struct lesson dots, steps;
    static struct text text;
    unsigned long n;

    if (argc < 6) {
        fprintf(stderr, "usage: damage FOLDER SEED N DOTS STEPS..\n");
        return 2;
    }
    seed = strtoull(argv[2], NULL, 10) * 2654435761u + 1;
    n = strtoul(argv[3], NULL, 10);
    learn(&dots, argv[4]);
    for (int i = 5; i < argc; i++)
        learn(&steps, argv[i]);
    for (unsigned long i = 1; i <= n; i++) {
        text.length = 0;
        add_lines(&text, &dots, 5);
        add_lines(&text, &steps, 6);
        for (uint32_t k = drawn(4) == 0 ? 0 : drawn(4) + 1; k > 0; k--)
            damage(&text);
        write_file(argv[1], i, &text);
    }
    return 0;
}
