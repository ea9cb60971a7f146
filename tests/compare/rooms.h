/* rooms.h - the six pieces between guards, and the five copies of them that a case needs. */
#ifndef COMPARE_ROOMS_H
#define COMPARE_ROOMS_H

#include <stddef.h>
#include <stdint.h>

enum { PIECES = 6, GUARD = 64 };
enum piece { DS, A, R, C, VC, V };

struct room {
    uint8_t guard0[GUARD];
    uint8_t ds[8192];
    uint8_t guard1[GUARD];
    uint32_t a[32];
    uint8_t guard2[GUARD];
    uint32_t r[32];
    uint8_t guard3[GUARD];
    uint32_t c[4];
    uint8_t guard4[GUARD];
    uint32_t vc[4];
    uint8_t guard5[GUARD];
    uint8_t v[512];
    uint8_t guard6[GUARD];
};

/* A piece's right length, in elements, and how many bytes an element has: struct room alone says them in numbers. */
#define LENGTH(piece) (sizeof((struct room *)0)->piece / WIDTH(piece))
#define WIDTH(piece) (sizeof((struct room *)0)->piece[0])

/* Where each piece lies in a room, its right length, and how many bytes an element has; and where the guards lie. */
struct shape {
    const char *name;
    size_t offset, length, width;
};

extern const struct shape shapes[PIECES];
extern const size_t guards[PIECES + 1];

/* The state before the case; each engine's own; and each engine's own once more, for what is done a second way. Between cases all that are in
   use are equal, so that nothing has to be copied but the state before the next case. */
enum { BEFORE, OURS, THEIRS, OURS_BACK, THEIRS_BACK, ROOMS };

extern struct room rooms[ROOMS];

/* An element, of either width, as a number. */
uint32_t element(const struct room *room, enum piece piece, size_t i);

/* Write one word, one byte of the store, or one vector register, in all rooms. */
void poke(enum piece piece, size_t i, uint32_t word);
void poke_byte(size_t i, uint8_t byte);
void poke_vector(size_t n, const uint8_t bytes[16]);

/* Draws all pieces anew, sets the guards, and makes all rooms equal. */
void redraw_all(void);

void copy_room(struct room *to, const struct room *from);

/* Takes the state that our engine left for the state before the next case. */
void go_on(void);

int alike(const struct room *x, const struct room *y);

/* Whether piece p, and whether all guards, are the same in both. */
int piece_alike(const struct room *x, const struct room *y, enum piece p);
int guards_alike(const struct room *x, const struct room *y);

/* Whether the guards are as they were set. */
int guards_whole(const struct room *room);

/* All elements of a piece, in hexadecimal; a row starts with its first index. */
void print_piece(const struct room *room, enum piece p);

#endif
