/* desk_store.c - the addresses of the data store, from document 01 ("Translation and the
 * sixteen banks", "Address instructions"): where the byte of an address lies, and the
 * address list of an access. */
#include "desk.h"

/* ---- Translation ---- */

enum { ADDRESS_MOST = 0x1fff };

static uint32_t bits(uint32_t word, uint32_t first, uint32_t last)
{
    return word >> first & ((2u << (last - first)) - 1);
}

/* What is added to the low four bits of the address to give its bank. */
static uint32_t bank_offset(uint32_t address, uint32_t code)
{
    switch (code) {
    case 0: return bits(address, 5, 7);
    case 1: return address / 32;
    case 2: return address / 64;
    default: return address / 128;
    }
}

uint32_t store_index(uint32_t address, uint32_t code)
{
    uint32_t hilo = bits(address, 4, 4), cell = bits(address, 5, 12);
    uint32_t bank = (bits(address, 0, 3) + bank_offset(address, code)) % 16;

    return bank * 512 + cell * 2 + hilo;
}

/* ---- Address lists ---- */

struct access access_at(enum way way, uint32_t address, uint32_t code)
{
    uint32_t count = way == WORD ? 4 : 16;
    uint32_t apart = way == COLUMN ? 16u << code : 1; /* the lowest bit that runs */
    struct access x = { .way = way, .code = code, .count = count };

    address &= ADDRESS_MOST & ~((count - 1) * apart);
    for (uint32_t i = 0; i < count; i++)
        x.addresses[i] = address + i * apart;
    return x;
}

/* Each group is three opcodes: horizontal, vertical and scalar. */
static const struct group { uint32_t first; int stores, with_uimm; } groups[] = {
    { 0xc0, 0, 0 }, /* lda, the increment a register's */
    { 0xc4, 1, 0 }, /* sta */
    { 0xd0, 0, 0 }, /* lda, the increment IMM */
    { 0xd4, 1, 0 }, /* sta */
    { 0xd8, 0, 1 }, /* ld */
    { 0xdc, 1, 1 }, /* st */
};

int access_of(uint32_t word, const uint32_t *a, struct access *access)
{
    static const enum way ways[3] = { ROW, COLUMN, WORD };
    uint32_t op = bits(word, 24, 31);

    for (size_t i = 0; i < sizeof groups / sizeof groups[0]; i++) {
        const struct group *g = &groups[i];

        if (op < g->first || op - g->first > 2)
            continue;
        uint32_t base = g->stores ? bits(word, 19, 23) : bits(word, 14, 18);
        uint32_t address = bits(a[base], 0, 15) | (g->with_uimm ? bits(word, 3, 13) : 0);

        *access = access_at(ways[op - g->first], address, bits(a[base], 30, 31));
        access->base = base;
        return 1;
    }
    return 0;
}

void fetch(const struct access *access, const uint8_t *ds, uint8_t *bytes)
{
    for (uint32_t i = 0; i < access->count; i++)
        bytes[i] = ds[store_index(access->addresses[i], access->code)];
}
