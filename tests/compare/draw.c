/* draw.c - the numbers that are drawn (Marsaglia's xorshift of 64 bits; the high half is drawn), and values at the edges. */
#include "draw.h"

#include "rooms.h"

#include <string.h>

uint64_t drawn;

uint32_t draw(void)
{
    drawn ^= drawn << 13;
    drawn ^= drawn >> 7;
    drawn ^= drawn << 17;
    return (uint32_t)(drawn >> 32);
}

uint32_t below(uint32_t n) { return draw() % n; }

void draw_bytes(uint8_t *bytes, size_t n)
{
    for (size_t i = 0; i < n; i += 4) {
        uint32_t word = draw();

        memcpy(bytes + i, &word, n - i < 4 ? n - i : 4);
    }
}

uint8_t edge_byte(void)
{
    static const uint8_t edges[] = {0, 1, 0x7f, 0x80, 0xff};

    return ONE_OF(edges);
}

uint32_t edge_word(void)
{
    static const uint32_t edges[] = {0, 1, 0x7fffffff, 0x80000000, 0xffffffff};

    return ONE_OF(edges);
}

/* Around the ends of a row, of the store, of a limit and of addr itself. */
uint32_t edge_a(void)
{
    static const uint32_t addr[] = {0,      1,      0xf,    0x10,   0x1f,   0x20,   0x7f,   0x80,   0x1fef, 0x1ff0,
                                    0x1fff, 0x2000, 0x3fff, 0x4000, 0x7fff, 0x8000, 0xdfff, 0xfbff, 0xfff0, 0xffff};
    static const uint32_t limit[] = {0, 1, 0x1fff, 0x2000, 0x3ffe, 0x3fff};
    uint32_t low = ONE_OF(addr), high = ONE_OF(limit);

    return low | high << 16 | below(4) << 30;
}

uint32_t near_a(uint32_t u)
{
    uint32_t addr = below(0x4000), limit = (addr + u + below(3) + 0x3fff) % 0x4000;

    return addr | limit << 16 | below(4) << 30;
}

uint32_t any_a(void)
{
    switch (below(4)) {
    case 0: return near_a(below(0x800));
    case 1: return edge_a();
    default: return draw();
    }
}

void draw_vector(size_t n)
{
    uint8_t bytes[16];

    draw_bytes(bytes, sizeof bytes);
    poke_vector(n, bytes);
}

void edge_vector(size_t n)
{
    uint8_t bytes[16];

    for (size_t i = 0; i < sizeof bytes; i++)
        bytes[i] = edge_byte();
    poke_vector(n, bytes);
}
