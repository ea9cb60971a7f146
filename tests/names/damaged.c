/* damaged.c - lines of drawn words, damaged by one to three edits of a byte. */
#include "../compare/draw.h"
#include "parts.h"
#include "report.h"
#include "slips.h"

#include <string.h>

enum { CASES = 480000, ENOUGH = 1000 };

static void insert(struct text *t, size_t i, uint8_t byte)
{
    memmove(t->bytes + i + 1, t->bytes + i, t->n - i);
    t->bytes[i] = byte;
    t->n++;
}

static void cut(struct text *t, size_t i)
{
    t->n--;
    memmove(t->bytes + i, t->bytes + i + 1, t->n - i);
}

static void exchange(uint8_t *x, uint8_t *y)
{
    uint8_t byte = *x;

    *x = *y;
    *y = byte;
}

static void damage(struct text *t)
{
    size_t i = below((uint32_t)t->n);
    uint8_t byte = line_byte();

    switch (below(10)) {
    case 0: t->bytes[i] = (uint8_t)draw(); break;
    case 1: insert(t, i, (uint8_t)draw()); break;
    case 2: insert(t, i + below(2), byte); break;
    case 3: cut(t, i); break;
    case 4: exchange(&t->bytes[i], &t->bytes[i > 0 ? i - 1 : 0]); break;
    case 5: insert(t, i, t->bytes[i]); break;
    default: t->bytes[i] = byte;
    }
}

static int damaged_line(unsigned long edits)
{
    static struct text t;
    struct line line;
    uint32_t word = draw_word();

    next_case(word);
    if (!write_word(word, &line))
        return 0;
    t.n = 0;
    add(&t, line.bytes, line.n);
    for (; edits > 0 && t.n > 0; edits--)
        damage(&t);
    return read_case(&t);
}

/* Texts of which nearly all are refused for one reason would compare little. */
static int enough(void)
{
    for (uint32_t n = 0; n < ANSWERS; n++) {
        unsigned long times = spoilt(answers[READ][n], SELDOM);

        if (can_answer(READ, n) && times < share(ENOUGH))
            return report_missing(SELDOM, "read", n, times);
    }
    return 1;
}

int damaged(void)
{
    for (unsigned long k = 0; k < share(CASES); k++)
        if (!damaged_line(k % 3 + 1))
            return 0;
    return enough();
}
