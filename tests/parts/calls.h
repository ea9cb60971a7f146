/* calls.h - one call of a list in parts, made of both engines and compared: its answer, its counts and every byte that was lent. */
#ifndef PARTS_CALLS_H
#define PARTS_CALLS_H

#include "../compare/rooms.h"
#include "vp1_state.h"

#include <stddef.h>
#include <stdint.h>

enum call { BEGIN, PART, END, CALLS };

/* The right lengths of the pieces. */
extern const size_t right[PIECES];

/* The library takes bytes up through a buffer of so many triples, behind the first triple of a part. */
enum { BLOCK = 160, BLOCK_BYTES = 12 * BLOCK };

/* The most bytes of a part; at how many neighbouring places they may begin; and the most words that are lent for the run. */
enum { MOST = 20480, SHIFTS = 16, LONGEST_RUN = 32 };

/* What is asked. The pieces and bytes are lent for a part alone. */
struct asked {
    enum call call;
    uint32_t budget; /* BEGIN */
    const uint8_t *bytes;
    size_t count, shift, n[PIECES]; /* PART: bytes, where they begin, the lengths of the pieces */
    size_t words;
};

/* What was answered: the numbers between guards. A struct without gaps, so that two can be compared as bytes. */
enum { UNTOUCHED = 0xdd };

struct said {
    uint32_t answer, guard0, steps, guard1;
    uint64_t guard2, accesses, guard3, clipped, guard4;
};

struct run_room {
    uint8_t guard0[GUARD];
    uint32_t w[LONGEST_RUN];
    uint8_t guard1[GUARD];
};

/* All that an engine is lent, and the two engines side by side. */
struct side {
    struct room room;
    struct run_room run;
    struct said said;
    uint8_t page[GUARD + SHIFTS + MOST + GUARD];
};

struct both {
    struct side ours, theirs;
};

/* What can be wrong, as bits: from DS_WRONG on there is one for each piece. */
enum wrong {
    ANSWER,
    STEPS,
    ACCESSES,
    CLIPPED,
    DS_WRONG,
    RUN_WORDS = DS_WRONG + PIECES,
    GUARDS,
    BYTES,
    FORM,
    STAYS,
    WHOLE,
    NEVER,
    WRONGS
};
#define BIT(wrong) (1u << (wrong))

/* The word of a run's count of 64 bits that has its low half; the high half is in the next one. */
enum { ACCESSES_AT = 4, CLIPPED_AT = 10 };
uint64_t count_at(const uint32_t *words, int at);
void set_count(uint32_t *words, int at, uint64_t n);

/* Makes the call of the second engine, without a slip, and writes down what it said. */
void of_second(const struct asked *q, struct side *s);

/* Makes the call of both engines and compares. Where they differ, or wrote where they must not, reports it and returns 0. */
int ask(const struct asked *q, struct both *b);

/* Does all `words` as one list, in both engines, from the state before the case; the pieces must end as in b, and the answer and the counts be
   those that b was told last. A list that is ragged (in bytes) and otherwise done was told 6. */
int as_one_list(const uint32_t *words, size_t count, uint32_t budget, int ragged, const struct both *b);

#endif
