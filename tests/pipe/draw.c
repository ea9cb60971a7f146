/* draw.c - draws a list of triples and writes it as bytes, each word with its low byte first.

   draw SEED N : N triples, of documented opcodes (second/documented.h), with side inputs that are taken. Of three lists two have one triple that is refused, with 1, 2, 3
   or 4, at a place that is drawn. What is drawn depends on the seed alone. */
#include "documented.h"

#include <stdint.h>
#include <stdio.h>
#include <stdlib.h>

static uint64_t seed;

/* Marsaglia's xorshift of 64 bits, the high half. */
static uint32_t drawn(void)
{
    seed ^= seed << 13;
    seed ^= seed >> 7;
    seed ^= seed << 17;
    return (uint32_t)(seed >> 32);
}

static void put(uint32_t word)
{
    for (int i = 0; i < 4; i++)
        putchar((int)(word >> 8 * i & 255));
}

static void put_triple(uint32_t opcode, uint32_t side, uint32_t mask)
{
    put(opcode << 24 | (drawn() & 0xffffff));
    put(side);
    put(mask);
}

static void put_good(void)
{
    uint32_t opcode = documented[drawn() % sizeof documented];

    put_triple(opcode, drawn() % 32, drawn() % 0x20000);
}

/* An opcode of another unit, one that is not documented, aadd, which uses the side index, and vcmpad, which uses the mask. */
static void put_refused(void)
{
    switch (drawn() % 4) {
    case 0: put_triple(0x7f, 0, 0); break;
    case 1: put_triple(0xc3, 0, 0); break;
    case 2: put_triple(0xca, 32, 0); break;
    default: put_triple(0x8f, 0, 0x20000); break;
    }
}

int main(int argc, char **argv)
{
    if (argc != 3) {
        fprintf(stderr, "usage: draw SEED N\n");
        return 2;
    }
    seed = strtoull(argv[1], NULL, 10) * 0x9e3779b97f4a7c15u + 1;
    unsigned long n = strtoul(argv[2], NULL, 10);
    for (int i = 0; i < 16; i++)
        drawn();
    unsigned long refused = drawn() % 3 == 0 || n == 0 ? n : drawn() % n;
    for (unsigned long i = 0; i < n; i++)
        if (i == refused)
            put_refused();
        else
            put_good();
    return fflush(stdout) == 0 ? 0 : 2;
}
