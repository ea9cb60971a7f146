/* text.c - what the parts share: words and bytes that are drawn, and texts that are put together and read. */
#include "../compare/draw.h"
#include "documented.h"
#include "parts.h"

#include <string.h>

int brief;

unsigned long share(unsigned long n) { return brief ? n / 64 : n; }

uint32_t draw_word_of(unsigned long k) { return (uint32_t)documented[k % sizeof documented] << 24 | below(0x1000000); }

uint32_t draw_word(void) { return draw_word_of(draw()); }

void add(struct text *t, const void *bytes, size_t n)
{
    memcpy(t->bytes + t->n, bytes, n);
    t->n += n;
}

void add_string(struct text *t, const char *string) { add(t, string, strlen(string)); }

void add_many(struct text *t, uint8_t byte, size_t n)
{
    memset(t->bytes + t->n, byte, n);
    t->n += n;
}

uint8_t line_byte(void)
{
    static const char bytes[] = " \n$-0123456789abcdefxsulohvmir";

    return (uint8_t)bytes[below(sizeof bytes - 1)];
}

int read_case(const struct text *t)
{
    uint32_t word;

    return read_back(t->bytes, t->n, ANYTHING, &word);
}
