/* report.c - the first case that differs, whole: what was asked, the pieces before, and both outcomes with what differs. */
#include "report.h"

#include "draw.h"
#include "fields.h"

#include <inttypes.h>
#include <stdio.h>
#include <string.h>

struct at at;
char differed[512];
int quiet;

/* A word of an outcome that no call has written. */
static const uint32_t unwritten = 0x01010101u * UNTOUCHED;

void begin_part(const char *part, int n, uint64_t seed)
{
    at = (struct at){.part = part, .seed = seed};
    drawn = seed + (uint64_t)n;
    if (drawn == 0)
        drawn = 1; /* from 0 every number would be 0 */
}

void next_case(void)
{
    at.number++;
    at.turn = NULL;
    at.drawn = drawn;
}

void next_turn(const char *turn, const uint32_t *words, size_t count)
{
    at.turn = turn;
    at.words = words;
    at.count = count;
}

static void differs_in(const char *name)
{
    size_t used = strlen(differed);

    snprintf(differed + used, sizeof differed - used, "%s%s", used ? ", " : "", name);
}

/* ---- What differs, in words ---- */

static int number_guards_alike(const struct outcome *x, const struct outcome *y)
{
    int same = x->guard == y->guard && x->accesses_guard == y->accesses_guard && x->clipped_guard == y->clipped_guard;

    for (int i = 0; i < COUNTS; i++)
        same = same && x->count[i].guard == y->count[i].guard;
    return same;
}

static void name_numbers(enum call call, const struct outcome *x, const struct outcome *y)
{
    if (x->answer != y->answer)
        differs_in("answer");
    if (x->accesses != y->accesses)
        differs_in("accesses");
    if (x->clipped != y->clipped)
        differs_in("clipped");
    for (int i = 0; i < COUNTS; i++)
        if (x->count[i].n != y->count[i].n)
            differs_in(count_names[call][i] ? count_names[call][i] : "a number that is not written");
    if (memcmp(x->buffer, y->buffer, sizeof x->buffer) != 0)
        differs_in("places");
    if (!number_guards_alike(x, y))
        differs_in("guards between numbers");
    if (differed[0] == '\0' && !same_numbers(x, y))
        differs_in("a number that has no name");
}

static void name_differences(const struct asked *q, unsigned wrong, struct side x, struct side y)
{
    differed[0] = '\0';
    name_numbers(q->call, x.said, y.said);
    for (int p = 0; p < PIECES; p++)
        if (!piece_alike(x.room, y.room, (enum piece)p))
            differs_in(shapes[p].name);
    if (!guards_alike(x.room, y.room))
        differs_in("guards");
    if (wrong & GUARDS)
        differs_in("guards as they were set");
    if (wrong & BEHIND)
        differs_in("the buffer behind the places");
    if (wrong & CHANGED)
        differs_in("pieces that were to stay");
    if (wrong & UNKNOWN)
        differs_in("an answer that the call cannot give");
}

/* ---- The case ---- */

static void print_words(const uint32_t *words, size_t count)
{
    for (size_t i = 0; i < count; i++)
        printf("%s%08" PRIx32, i % TRIPLE == 0 ? "\n    " : " ", words[i]);
    printf("\n");
}

static void print_case(const struct asked *q)
{
    printf("part %s, case %lu, seed %" PRIx64 ", drawing at %" PRIx64 "\n", at.part, at.number, at.seed, at.drawn);
    if (at.turn)
        printf("which: %s\n", at.turn);
    if (at.turn && at.count != q->count) {
        printf("the case is of");
        print_words(at.words, at.count);
    }
    printf("call %s of", call_names[q->call]);
    print_words(q->words, q->count);
    if (q->call == RUN)
        printf("words %zu, budget %" PRIu32 "\n", q->count, q->budget);
    if (q->call == PLACES)
        printf("buffer %zu\n", q->buffer);
    printf("lengths");
    for (int p = 0; p < PIECES; p++)
        printf(" %s %zu", shapes[p].name, q->lent.n[p]);
    printf("\n");
}

/* ---- The outcomes ---- */

static void print_numbers(const struct asked *q, struct side s)
{
    const struct outcome *o = s.said;

    printf("%s: answer %" PRIu32, s.name, o->answer);
    if (q->call == STEP || q->call == RUN)
        printf(", accesses %" PRIu64 ", clipped %" PRIu64, o->accesses, o->clipped);
    for (int i = 0; i < COUNTS && count_names[q->call][i]; i++)
        printf(", %s %" PRIu32, count_names[q->call][i], o->count[i].n);
    if (q->call == PLACES) {
        printf("; buffer");
        for (int i = 0; i < BUFFER; i++)
            o->buffer[i] == unwritten ? printf(" -") : printf(" %" PRIu32, o->buffer[i]);
    }
    printf("\n");
}

/* The elements that differ. */
static void print_different(struct side x, struct side y)
{
    for (int p = 0; p < PIECES; p++)
        for (size_t i = 0; i < shapes[p].length; i++) {
            uint32_t was = element(&rooms[BEFORE], (enum piece)p, i);
            uint32_t one = element(x.room, (enum piece)p, i), other = element(y.room, (enum piece)p, i);

            if (one != other)
                printf("  differs %s[%zu]: before %" PRIx32 ", %s %" PRIx32 ", %s %" PRIx32 "\n", shapes[p].name, i, was, x.name, one,
                       y.name, other);
        }
}

/* The elements that both changed alike. */
static void print_changed(struct side x, struct side y)
{
    for (int p = 0; p < PIECES; p++)
        for (size_t i = 0; i < shapes[p].length; i++) {
            uint32_t was = element(&rooms[BEFORE], (enum piece)p, i), now = element(x.room, (enum piece)p, i);

            if (now != was && now == element(y.room, (enum piece)p, i))
                printf("  changed %s[%zu]: before %" PRIx32 ", both %" PRIx32 "\n", shapes[p].name, i, was, now);
        }
}

/* The guards' bytes that are not as they were set. */
static void print_guards(struct side s)
{
    for (int g = 0; g <= PIECES; g++) {
        const uint8_t *now = (const uint8_t *)s.room + guards[g], *was = (const uint8_t *)&rooms[BEFORE] + guards[g];

        for (int i = 0; i < GUARD; i++)
            if (now[i] != was[i])
                printf("  %s, guard %s %s, byte %d: before %02x, now %02x\n", s.name, g < PIECES ? "before" : "after",
                       shapes[g < PIECES ? g : V].name, i, was[i], now[i]);
    }
}

/* The same of the guard behind a number of 64 bits. */
static void print_wide_guard(const char *side, const char *number, uint64_t now)
{
    if (now != (uint64_t)unwritten * 0x100000001u)
        printf("  %s, guard behind %s: before %08" PRIx32 " twice, now %016" PRIx64 "\n", side, number, unwritten, now);
}

/* The same of all guards between the numbers. */
static void print_number_guards(struct side s)
{
    const struct outcome *o = s.said;

    if (o->guard != unwritten)
        printf("  %s, guard before accesses: before %08" PRIx32 ", now %08" PRIx32 "\n", s.name, unwritten, o->guard);
    print_wide_guard(s.name, "accesses", o->accesses_guard);
    print_wide_guard(s.name, "clipped", o->clipped_guard);
    for (int i = 0; i < COUNTS; i++)
        if (o->count[i].guard != unwritten)
            printf("  %s, guard behind count %d: before %08" PRIx32 ", now %08" PRIx32 "\n", s.name, i, unwritten, o->count[i].guard);
}

void report(const struct asked *q, unsigned wrong, struct side x, struct side y)
{
    name_differences(q, wrong, x, y);
    if (quiet)
        return;
    printf("compare: a difference in %s\n", differed);
    print_case(q);
    printf("\nthe pieces before the case\n");
    for (int p = 0; p < PIECES; p++)
        print_piece(&rooms[BEFORE], (enum piece)p);
    printf("\nthe outcomes\n");
    print_numbers(q, x);
    print_numbers(q, y);
    print_different(x, y);
    print_guards(x);
    print_guards(y);
    print_number_guards(x);
    print_number_guards(y);
    print_changed(x, y);
}
