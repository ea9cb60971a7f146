/* rooms.c - the six pieces between guards: reading, writing, copying, comparing and printing rooms. */
#include "rooms.h"

#include "draw.h"

#include <inttypes.h>
#include <stdio.h>
#include <string.h>

struct room rooms[ROOMS];

#define SHAPE(piece) {#piece, offsetof(struct room, piece), LENGTH(piece), WIDTH(piece)}
const struct shape shapes[PIECES] = {
    [DS] = SHAPE(ds), [A] = SHAPE(a), [R] = SHAPE(r), [C] = SHAPE(c), [VC] = SHAPE(vc), [V] = SHAPE(v),
};

const size_t guards[PIECES + 1] = {
    offsetof(struct room, guard0), offsetof(struct room, guard1), offsetof(struct room, guard2), offsetof(struct room, guard3),
    offsetof(struct room, guard4), offsetof(struct room, guard5), offsetof(struct room, guard6),
};

/* What a guard holds: no two neighbours alike, so that a byte that is moved shows too. */
static uint8_t pattern[GUARD];

uint32_t element(const struct room *room, enum piece piece, size_t i)
{
    const uint8_t *at = (const uint8_t *)room + shapes[piece].offset + i * shapes[piece].width;
    uint32_t word = 0;

    memcpy(&word, at, shapes[piece].width);
    return word;
}

void poke(enum piece piece, size_t i, uint32_t word)
{
    for (int n = 0; n < ROOMS; n++)
        memcpy((uint8_t *)&rooms[n] + shapes[piece].offset + 4 * i, &word, 4);
}

void poke_byte(size_t i, uint8_t byte)
{
    for (int n = 0; n < ROOMS; n++)
        rooms[n].ds[i] = byte;
}

void poke_vector(size_t n, const uint8_t bytes[16])
{
    for (int i = 0; i < ROOMS; i++)
        memcpy(rooms[i].v + 16 * n, bytes, 16);
}

/* By small parts: a long memcpy is one string instruction, which an emulator does byte by byte. */
void copy_room(struct room *to, const struct room *from)
{
    enum { PART = 1024 };

    for (size_t i = 0; i < sizeof *to; i += PART)
        memcpy((uint8_t *)to + i, (const uint8_t *)from + i, sizeof *to - i < PART ? sizeof *to - i : PART);
}

void redraw_all(void)
{
    struct room *first = &rooms[BEFORE];

    draw_bytes((uint8_t *)first, sizeof *first);
    for (size_t i = 0; i < GUARD; i++)
        pattern[i] = (uint8_t)(0x5c ^ (i * 7));
    for (int g = 0; g <= PIECES; g++)
        memcpy((uint8_t *)first + guards[g], pattern, GUARD);
    for (int n = BEFORE + 1; n < ROOMS; n++)
        copy_room(&rooms[n], first);
}

void go_on(void) { copy_room(&rooms[BEFORE], &rooms[OURS]); }

int alike(const struct room *x, const struct room *y) { return memcmp(x, y, sizeof *x) == 0; }

int piece_alike(const struct room *x, const struct room *y, enum piece p)
{
    size_t at = shapes[p].offset;

    return memcmp((const uint8_t *)x + at, (const uint8_t *)y + at, shapes[p].length * shapes[p].width) == 0;
}

int guards_alike(const struct room *x, const struct room *y)
{
    for (int g = 0; g <= PIECES; g++)
        if (memcmp((const uint8_t *)x + guards[g], (const uint8_t *)y + guards[g], GUARD) != 0)
            return 0;
    return 1;
}

int guards_whole(const struct room *room)
{
    for (int g = 0; g <= PIECES; g++)
        if (memcmp((const uint8_t *)room + guards[g], pattern, GUARD) != 0)
            return 0;
    return 1;
}

void print_piece(const struct room *room, enum piece p)
{
    size_t row = shapes[p].width == 1 ? 32 : 8;
    int digits = shapes[p].width == 1 ? 2 : 8;

    for (size_t i = 0; i < shapes[p].length; i++) {
        if (i % row == 0)
            printf("%s%s %zu:", i ? "\n" : "", shapes[p].name, i);
        printf(" %0*" PRIx32, digits, element(room, p, i));
    }
    printf("\n");
}
