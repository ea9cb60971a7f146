/* bytes.c - any bytes at all: texts that are drawn, short and very long, and very long ones by rule. */
#include "../compare/draw.h"
#include "parts.h"
#include "report.h"

/* So many texts, and below which length. */
enum { CASES = 131072, SHORT = 81, LONG_CASES = 128, LONG = MOST + 1 };

static struct text t;

/* ---- Drawn ---- */

static void add_drawn(size_t n)
{
    draw_bytes(t.bytes + t.n, n);
    t.n += n;
}

static void add_line_bytes(size_t n)
{
    for (; n > 0; n--)
        add_many(&t, line_byte(), 1);
}

/* The first bytes of a line: a part of its name, or the name and more, or all. */
static int add_front(uint32_t word)
{
    struct line line;

    if (!write_word(word, &line))
        return 0;
    add(&t, line.bytes, below((uint32_t)line.n + 1));
    return 1;
}

/* Of any bytes, and of those that lines are made of; half of them after the front of a line, half of them with a line feed at the end. */
static int drawn_text(unsigned long k, uint32_t n)
{
    uint32_t word = draw_word();

    next_case(word);
    t.n = 0;
    if (k & 1 && !add_front(word))
        return 0;
    n -= n < t.n ? n : (uint32_t)t.n;
    k & 2 ? add_line_bytes(n) : add_drawn(n);
    if (k & 4 && t.n > 0)
        t.bytes[t.n - 1] = '\n';
    return read_case(&t);
}

static int drawn_texts(unsigned long count, uint32_t limit)
{
    for (unsigned long k = 0; k < count; k++)
        if (!drawn_text(k, below(limit)))
            return 0;
    return 1;
}

/* ---- By rule ---- */

/* Something, a byte many times, something. Some would be a line if their length were cut to sixteen bits, or if a number's value alone counted. */
static const struct {
    const char *front;
    char byte;
    size_t times;
    const char *back;
} runs[] = {
    {"", ' ', 0, ""},
    {"", '\n', 1, ""},
    {"", '\n', 2, ""},
    {"", '\n', 70000, ""},
    {"", ' ', 1, ""},
    {"", ' ', 1, "\n"},
    {"", ' ', 70000, ""},
    {"", ' ', 69999, "\n"},
    {"", '0', 70000, ""},
    {"", '7', 69999, "\n"},
    {"", '\0', 69999, "\n"},
    {"", ' ', 60000, "anop\n"},
    {"", 'x', 65536, "anop\n"},
    {"anop", ' ', 0, "\n"},
    {"anop", '\0', 1, "\n"},
    {"anop", ' ', 1, "\n"},
    {"anop", ' ', 60000, "\n"},
    {"anop", '\n', 65536, "\n"},
    {"anop\n", 'x', 65536, ""},
    {"anop\n", 'x', 65535, "\n"},
    {"anop\n", '\n', 65536, ""},
    {"anop\nanop\n", ' ', 0, ""},
    {"setlo $a3 0x1234", ' ', 0, "\n"},
    {"setlo $a3 0x1234", ' ', 60000, "\n"},
    {"setlo $a3 0x1234", '4', 65536, "\n"},
    {"setlo $a3 0x1234\n", ' ', 65519, ""},
    {"setlo $a3 0x1234\n", ' ', 65536, ""},
    {"setlo $a3 0x1234\n", 'x', 65535, "\n"},
    {"setlo", ' ', 60000, "$a3 0x1234\n"},
    {"setlo", 'o', 65536, " $a3 0x1234\n"},
    {"setlo $a", '0', 60000, "3 0x1234\n"},
    {"setlo $a3 0x", '0', 60000, "1234\n"},
    {"setlo $a3 0x", '0', 60000, "\n"},
    {"setlo $a3 0x1", '0', 60000, "\n"},
    {"ldavh $v0 $a0 -0x", '0', 60000, "1\n"},
    {"ldavh $v0 $a0 ", '-', 60000, "0x1\n"},
    {"ldavh $v0 $c", '0', 60000, " $a0 $a0\n"},
};

static int long_texts(void)
{
    for (size_t i = 0; i < sizeof runs / sizeof runs[0]; i++) {
        next_case(0);
        t.n = 0;
        add_string(&t, runs[i].front);
        add_many(&t, (uint8_t)runs[i].byte, runs[i].times);
        add_string(&t, runs[i].back);
        if (!read_case(&t))
            return 0;
    }
    return 1;
}

int any_bytes(void)
{
    return drawn_texts(share(CASES), SHORT) && drawn_texts(share(LONG_CASES), LONG) && long_texts();
}
