/* report.c - the first case that differs, whole: what was asked, and both outcomes. */
#include "report.h"

#include "../compare/draw.h"

#include <inttypes.h>
#include <stdio.h>
#include <string.h>

struct at at;
unsigned found;
int quiet;

static const char *const wrong_names[WRONGS] = {
    [ANSWER] = "answer",
    [LENGTH] = "length",
    [WORD] = "word",
    [OUTPUT] = "output",
    [TEXT] = "text",
    [GUARDS] = "guards",
    [NUMBER_GUARDS] = "guards of a number",
    [UNKNOWN] = "an answer that the call cannot give",
    [NOT_ZERO] = "a number that was to be 0",
    [SET_GUARDS] = "guards as they were set",
    [BEHIND] = "the output behind the line",
    [REFUSED_OUTPUT] = "an output that was to stay",
    [LENT_TEXT] = "a text that was to stay",
    [TOO_LONG] = "a line that is too long",
    [LISTED] = "the list of documented opcodes",
    [NOT_READ] = "a line that is not read",
    [OTHER_LINE] = "the line of the word that was read",
    [OTHER_WORD] = "the word of a normal form's line",
    [NEVER] = "an answer that never came",
    [SELDOM] = "an answer that seldom came",
    [NO_LONGEST] = "the longest line",
};

void begin_part(const char *part, int n, uint64_t seed)
{
    at = (struct at){.part = part, .seed = seed};
    drawn = seed + (uint64_t)n;
    if (drawn == 0)
        drawn = 1; /* from 0 every number would be 0 */
}

void next_case(uint32_t word)
{
    at.number++;
    at.drawn = drawn;
    at.word = word;
}

void print_found(void)
{
    const char *between = "";

    for (int i = 0; i < WRONGS; i++)
        if (found & BIT(i)) {
            printf("%s%s", between, wrong_names[i]);
            between = ", ";
        }
    printf("\n");
}

/* ---- The case ---- */

/* As a string of C, so that it can be tried again. */
static void print_text(const uint8_t *text, size_t n)
{
    printf("\"");
    for (size_t i = 0; i < n; i++)
        if (text[i] == '\n')
            printf("\\n");
        else if (text[i] < 0x20 || text[i] > 0x7e || text[i] == '"' || text[i] == '\\')
            printf("\\%03o", text[i]);
        else
            printf("%c", text[i]);
    printf("\"\n");
}

static void print_case(const struct asked *q)
{
    printf("part %s, case %lu, seed %" PRIx64 ", drawing at %" PRIx64 ", made from the word %08" PRIx32 "\n", at.part, at.number, at.seed,
           at.drawn, at.word);
    if (q->call == WRITE) {
        printf("call write of %08" PRIx32 ", output of %zu bytes, before ", q->word, q->room);
        print_text(pages[BEFORE] + GUARD, q->room);
    } else {
        printf("call read of %zu bytes, ", q->n);
        print_text(q->text, q->n);
    }
}

/* Why the call must give what it must. */
static void print_must(const struct asked *q)
{
    if (q->must == THIS && q->call == WRITE) {
        printf("the word was read from ");
        print_text(q->text, q->n);
    } else if (q->must == THIS) {
        printf("the same line was read before as %08" PRIx32 "\n", q->word);
    } else if (q->must != ANYTHING && q->call == WRITE) {
        printf("the opcode is %sin documented.h\n", q->must == SUCCESS ? "" : "not ");
    } else if (q->must != ANYTHING) {
        printf("the text was written as the line of that word\n");
    }
}

/* ---- The outcomes ---- */

/* The bytes of a guard that are not as they were set. */
static void print_guard(const char *name, const char *which, const uint8_t *guard)
{
    for (int i = 0; i < GUARD; i++)
        if (guard[i] != pattern[i])
            printf("  %s, guard %s, byte %d: before %02x, now %02x\n", name, which, i, pattern[i], guard[i]);
}

static void print_outcome(const struct asked *q, const char *name, struct handed h)
{
    const struct outcome *said = h.said;
    const uint32_t untouched = 0x01010101u * UNTOUCHED;
    size_t n = lent(q);

    if (q->call == WRITE)
        printf("%s: answer %" PRIu32 ", length %" PRIu32 ", output ", name, said->answer, said->number);
    else
        printf("%s: answer %" PRIu32 ", word %08" PRIx32 ", text ", name, said->answer, said->number);
    if (memcmp(h.page + GUARD, pages[BEFORE] + GUARD, n) == 0)
        printf("as before\n");
    else
        print_text(h.page + GUARD, n);
    print_guard(name, "before it", h.page);
    print_guard(name, "behind it", h.page + GUARD + n);
    if (said->front != untouched || said->back != untouched)
        printf("  %s, guards of the number: before %08" PRIx32 ", now %08" PRIx32 " and %08" PRIx32 "\n", name, untouched, said->front,
               said->back);
}

void report(const struct asked *q, unsigned wrong, struct handed ours, struct handed theirs)
{
    found = wrong;
    if (quiet)
        return;
    printf("names: a difference in ");
    print_found();
    print_case(q);
    print_must(q);
    print_outcome(q, "vp1", ours);
    print_outcome(q, "second", theirs);
}

int report_missing(enum wrong wrong, const char *what, uint32_t n, unsigned long times)
{
    found = BIT(wrong);
    if (!quiet)
        printf("names: %s: %s %" PRIu32 ", %lu times\n", wrong_names[wrong], what, n, times);
    return 0;
}
