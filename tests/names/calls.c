/* calls.c - one call, made of both engines and compared; and the calls that a case makes one after another. */
#include "calls.h"

#include "../compare/draw.h"
#include "documented.h"
#include "lines.h"
#include "report.h"
#include "slips.h"

#include <string.h>

uint8_t pages[PAGES][GUARD + MOST + GUARD];
uint8_t pattern[GUARD];
unsigned long answers[CALLS][ANSWERS], longest;

/* The answers that each call can give, the answer n as bit n. */
static const uint32_t can[CALLS] = {
    [WRITE] = 1u << VP1_DONE | 1u << VP1_FOREIGN | 1u << VP1_UNDOCUMENTED | 1u << VP1_SHORT,
    [READ] = 1u << VP1_DONE | 1u << VP1_UNNAMED | 1u << VP1_AMISS | 1u << VP1_UNENDED,
};

int can_answer(enum call call, uint32_t answer) { return answer < ANSWERS && can[call] >> answer & 1; }

size_t lent(const struct asked *q) { return q->call == WRITE ? q->room : q->n; }

/* No two neighbours alike, so that a byte that is moved shows too; and a line feed first, so that it shows if a text is read beyond its end. */
void set_pattern(void)
{
    for (size_t i = 0; i < GUARD; i++)
        pattern[i] = (uint8_t)('\n' ^ (i * 7));
}

/* ---- The call ---- */

static void lay_out(const struct asked *q)
{
    uint8_t *page = pages[BEFORE];
    size_t n = lent(q);

    memcpy(page, pattern, GUARD);
    if (q->call == WRITE)
        draw_bytes(page + GUARD, n);
    else
        memcpy(page + GUARD, q->text, n);
    memcpy(page + GUARD + n, pattern, GUARD);
    memcpy(pages[OURS], page, GUARD + n + GUARD);
    memcpy(pages[THEIRS], page, GUARD + n + GUARD);
}

static void call_both(const struct asked *q, struct handed ours, struct handed theirs)
{
    memset(ours.said, UNTOUCHED, sizeof *ours.said);
    memset(theirs.said, UNTOUCHED, sizeof *theirs.said);
    if (q->call == WRITE) {
        ours.said->answer = vp1_write_line(q->word, ours.page + GUARD, q->room, &ours.said->number);
        theirs.said->answer = second_write_line(q->word, theirs.page + GUARD, q->room, &theirs.said->number);
    } else {
        ours.said->answer = vp1_read_line(ours.page + GUARD, q->n, &ours.said->number);
        theirs.said->answer = second_read_line(theirs.page + GUARD, q->n, &theirs.said->number);
    }
}

/* ---- What is wrong ---- */

static int guards_same(const uint8_t *x, const uint8_t *y, size_t n)
{
    return memcmp(x, y, GUARD) == 0 && memcmp(x + GUARD + n, y + GUARD + n, GUARD) == 0;
}

static unsigned engines_differ(const struct asked *q, struct handed ours, struct handed theirs)
{
    const struct outcome *x = ours.said, *y = theirs.said;
    unsigned wrong = 0;

    if (x->answer != y->answer)
        wrong |= BIT(ANSWER);
    if (x->number != y->number)
        wrong |= q->call == WRITE ? BIT(LENGTH) : BIT(WORD);
    if (x->front != y->front || x->back != y->back)
        wrong |= BIT(NUMBER_GUARDS);
    if (memcmp(ours.page + GUARD, theirs.page + GUARD, lent(q)) != 0)
        wrong |= q->call == WRITE ? BIT(OUTPUT) : BIT(TEXT);
    if (!guards_same(ours.page, theirs.page, lent(q)))
        wrong |= BIT(GUARDS);
    return wrong;
}

/* Of an output: what lies behind the line stays, and with a refusal everything. */
static unsigned badly_written(const struct asked *q, struct handed ours)
{
    int done = ours.said->answer == VP1_DONE;
    size_t n = done ? ours.said->number : 0;

    if (q->must == (done ? REFUSAL : SUCCESS))
        return BIT(LISTED);
    if (n > VP1_LINE || n > q->room)
        return BIT(TOO_LONG);
    if (memcmp(ours.page + GUARD + n, pages[BEFORE] + GUARD + n, q->room - n) != 0)
        return done ? BIT(BEHIND) : BIT(REFUSED_OUTPUT);
    if (q->must == THIS && (n != q->n || memcmp(ours.page + GUARD, q->text, n) != 0))
        return BIT(OTHER_LINE);
    return 0;
}

static unsigned badly_read(const struct asked *q, struct handed ours)
{
    if (memcmp(ours.page + GUARD, pages[BEFORE] + GUARD, q->n) != 0)
        return BIT(LENT_TEXT);
    if (q->must != ANYTHING && ours.said->answer != VP1_DONE)
        return BIT(NOT_READ);
    return q->must == THIS && ours.said->number != q->word ? BIT(OTHER_WORD) : 0;
}

/* Only our side is held to what must be: where theirs is another, the two differ. */
static unsigned find_wrong(const struct asked *q, struct handed ours, struct handed theirs)
{
    const uint32_t untouched = 0x01010101u * UNTOUCHED;
    const struct outcome *said = ours.said;
    unsigned wrong = engines_differ(q, ours, theirs);

    if (!can_answer(q->call, said->answer))
        wrong |= BIT(UNKNOWN);
    if (said->answer != VP1_DONE && said->number != 0)
        wrong |= BIT(NOT_ZERO);
    if (said->front != untouched || said->back != untouched || !guards_same(ours.page, pages[BEFORE], lent(q)))
        wrong |= BIT(SET_GUARDS);
    return wrong | (q->call == WRITE ? badly_written(q, ours) : badly_read(q, ours));
}

int ask(const struct asked *q, struct outcome *said)
{
    struct outcome our_outcome;
    struct handed ours = {pages[OURS], &our_outcome}, theirs = {pages[THEIRS], said};
    unsigned wrong;

    lay_out(q);
    call_both(q, ours, theirs);
    spoil(q, ours, theirs);
    wrong = find_wrong(q, ours, theirs);
    if (wrong) {
        report(q, wrong, ours, theirs);
        return 0;
    }
    answers[q->call][said->answer]++;
    longest += q->call == WRITE && said->number == VP1_LINE;
    return 1;
}

/* ---- One after another ---- */

int write_word(uint32_t word, struct line *line)
{
    int listed = memchr(documented, (int)(word >> 24), sizeof documented) != NULL;
    struct asked q = {.call = WRITE, .word = word, .room = VP1_LINE, .must = listed ? SUCCESS : REFUSAL};
    struct outcome said;

    if (!ask(&q, &said))
        return 0;
    line->n = said.number;
    memcpy(line->bytes, pages[THEIRS] + GUARD, line->n);
    return 1;
}

int read_back(const uint8_t *text, size_t n, enum must must, uint32_t *word)
{
    struct asked read = {.call = READ, .text = text, .n = n, .must = must};
    struct asked write = {.call = WRITE, .text = text, .n = n, .room = VP1_LINE, .must = THIS};
    struct outcome said;

    if (!ask(&read, &said))
        return 0;
    *word = write.word = said.number;
    return said.answer != VP1_DONE || ask(&write, &said);
}
