/* outputs.c - outputs of every length, and some that are very long: 11, and what must stay. */
#include "../compare/draw.h"
#include "documented.h"
#include "parts.h"
#include "report.h"

/* Of each opcode so many words. The last lengths would be 0, 1 and the longest line's, if a length were cut to eight or sixteen bits. */
enum { EACH = 8 };
static const size_t rooms_beyond[] = {0x100, 0x101, 0x10000, 0x10001, 0x10000 + VP1_LINE};
enum { BEYOND = sizeof rooms_beyond / sizeof rooms_beyond[0] };

static int into(uint32_t word, size_t room)
{
    struct asked q = {.call = WRITE, .word = word, .room = room};
    struct outcome said;

    next_case(word);
    return ask(&q, &said);
}

/* From nothing to more than any line takes. */
static int every_length(uint32_t word)
{
    for (size_t room = 0; room <= VP1_LINE + 2; room++)
        if (!into(word, room))
            return 0;
    return 1;
}

static int every_opcode(void)
{
    for (uint32_t k = 0; k < 256 * EACH; k += brief ? 13 : 1) {
        const uint32_t opcode = k / EACH << 24, lows[] = {0, 0xffffff, 0xfffff8};

        if (!every_length(opcode | (k % EACH < 3 ? lows[k % EACH] : below(0x1000000))))
            return 0;
    }
    return 1;
}

static int beyond(void)
{
    for (unsigned long k = 0; k < share(BEYOND * sizeof documented); k++)
        if (!into(draw_word_of(k / BEYOND), rooms_beyond[k % BEYOND]))
            return 0;
    return 1;
}

int outputs(void) { return every_opcode() && beyond(); }
