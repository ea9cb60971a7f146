/* report.c - the first case that differs, whole. */
#include "report.h"

#include "../compare/draw.h"
#include "list.h"

#include <inttypes.h>
#include <stdio.h>
#include <string.h>

struct at at;
unsigned found;
int quiet;

static const char *const wrong_names[WRONGS] = {
    [ANSWER] = "answer",
    [STEPS] = "steps",
    [ACCESSES] = "accesses",
    [CLIPPED] = "clipped",
    [DS_WRONG] = "ds",
    [DS_WRONG + A] = "a",
    [DS_WRONG + R] = "r",
    [DS_WRONG + C] = "c",
    [DS_WRONG + VC] = "vc",
    [DS_WRONG + V] = "v",
    [RUN_WORDS] = "the run's words",
    [GUARDS] = "guards",
    [BYTES] = "the bytes that were lent",
    [FORM] = "the form of the words",
    [STAYS] = "what was to stay",
    [WHOLE] = "the whole list as one call",
    [NEVER] = "a kind that never came",
};

/* The calls of the case, in a few words each. All but the last calls are lost where they are more than the room. */
enum { CALLS_KEPT = 256, NAMED_IN = 160 };
static char calls[CALLS_KEPT][NAMED_IN];
static unsigned long made;

/* The last call. */
static struct asked last;

void begin_part(const char *part, int n, uint64_t seed)
{
    at = (struct at){.part = part, .seed = seed};
    drawn = seed + (uint64_t)n;
    if (drawn == 0)
        drawn = 1; /* from 0 every number would be 0 */
}

void next_case(void)
{
    at.number++;
    at.drawn = drawn;
    made = 0;
}

void note(const char *what) { snprintf(calls[made++ % CALLS_KEPT], NAMED_IN, "%s", what); }

/* What is not as usual: other lengths. */
static void add_lengths(char *text, const struct asked *q)
{
    for (int p = 0; p < PIECES && q->call == PART; p++)
        if (q->n[p] != right[p])
            snprintf(text + strlen(text), NAMED_IN - strlen(text), ", %s %zu", shapes[p].name, q->n[p]);
    if (q->words != VP1_PARTS)
        snprintf(text + strlen(text), NAMED_IN - strlen(text), ", words %zu", q->words);
}

void next_call(const struct asked *q)
{
    char *text = calls[made++ % CALLS_KEPT];

    last = *q;
    if (q->call == BEGIN)
        snprintf(text, NAMED_IN, "begin, budget %" PRIu32, q->budget);
    else if (q->call == END)
        snprintf(text, NAMED_IN, "end");
    else
        snprintf(text, NAMED_IN, "part of %zu bytes, from byte %zu on", q->count, (size_t)(q->bytes - list.bytes));
    add_lengths(text, q);
}

void print_found(void)
{
    const char *before = "";

    for (int i = 0; i < WRONGS; i++)
        if (found & BIT(i)) {
            printf("%s%s", before, wrong_names[i]);
            before = ", ";
        }
    printf("\n");
}

/* The list, a triple to a line with the number of its first byte. */
static void print_list(void)
{
    printf("the list: %zu bytes, budget %" PRIu32, list.count, list.budget);
    for (size_t i = 0; i < list.count; i++) {
        if (i % 12 == 0)
            printf("\n  %5zu:", i);
        printf("%s%02x", i % 4 == 0 ? " " : "", list.bytes[i]);
    }
    printf("\n");
}

static void print_calls(void)
{
    unsigned long first = made > CALLS_KEPT ? made - CALLS_KEPT : 0;

    printf("the calls%s, of which the last is wrong\n", first > 0 ? ", the first ones left out" : "");
    for (unsigned long i = first; i < made; i++)
        printf("  %s\n", calls[i % CALLS_KEPT]);
}

static void print_words(const char *name, const uint32_t *w)
{
    printf("  %s:", name);
    for (int i = 0; i < VP1_PARTS; i++)
        printf(" %" PRIx32, w[i]);
    printf("\n");
}

static void print_said(const char *name, const struct side *s)
{
    printf("%s: answer %" PRIu32 ", steps %" PRIu32 ", accesses %" PRIu64 ", clipped %" PRIu64 "\n", name, s->said.answer, s->said.steps,
           s->said.accesses, s->said.clipped);
    print_words("words", s->run.w);
}

/* The elements that differ. */
static void print_different(const char *x_name, const struct side *x, const char *y_name, const struct side *y)
{
    for (int p = 0; p < PIECES; p++)
        for (size_t i = 0; i < shapes[p].length; i++) {
            uint32_t one = element(&x->room, (enum piece)p, i), other = element(&y->room, (enum piece)p, i);

            if (one != other)
                printf("  differs %s[%zu]: before the case %" PRIx32 ", %s %" PRIx32 ", %s %" PRIx32 "\n", shapes[p].name, i,
                       element(&rooms[BEFORE], (enum piece)p, i), x_name, one, y_name, other);
        }
}

/* The first byte of a guard that is not as it was set: all guards are alike. */
static void print_guard(const char *name, const char *where, const uint8_t *now)
{
    const uint8_t *was = rooms[BEFORE].guard0;

    for (int i = 0; i < GUARD; i++)
        if (now[i] != was[i]) {
            printf("  %s, guard %s, byte %d: before %02x, now %02x\n", name, where, i, was[i], now[i]);
            return;
        }
}

/* All guards of what was lent, and the first of a part's bytes that is another. */
static void print_guards(const char *name, const struct side *s)
{
    static const char *const before_piece[PIECES] = {"before ds", "before a", "before r", "before c", "before vc", "before v"};
    const uint8_t *bytes = s->page + GUARD + last.shift, *set = (const uint8_t *)&s->said;

    for (int g = 0; g <= PIECES; g++)
        print_guard(name, g < PIECES ? before_piece[g] : "behind v", (const uint8_t *)&s->room + guards[g]);
    print_guard(name, "before the words", s->run.guard0);
    print_guard(name, "behind the words", s->run.guard1);
    print_guard(name, "before the bytes", bytes - GUARD);
    print_guard(name, "behind the bytes", bytes + last.count);
    for (size_t i = 0; i < last.count; i++)
        if (bytes[i] != last.bytes[i])
            printf("  %s, byte %zu of the part: before %02x, now %02x\n", name, i, last.bytes[i], bytes[i]);
    printf("  %s, the numbers between their guards (each of %02x):", name, UNTOUCHED);
    for (size_t i = 0; i < sizeof s->said; i++)
        printf("%s%02x", i % 4 == 0 ? " " : "", set[i]);
    printf("\n");
}

int report(unsigned wrong, const struct run_room *before, const char *x_name, const struct side *x, const char *y_name, const struct side *y)
{
    found = wrong;
    if (quiet)
        return 0;
    printf("parts: a difference in ");
    print_found();
    printf("part %s, case %lu, seed %" PRIx64 ", drawing at %" PRIx64 "\n", at.part, at.number, at.seed, at.drawn);
    print_list();
    print_calls();
    printf("\nthe pieces before the case\n");
    for (int p = 0; p < PIECES; p++)
        print_piece(&rooms[BEFORE], (enum piece)p);
    printf("\nthe outcomes\n");
    print_words("words before the call, in hexadecimal", before->w);
    print_said(x_name, x);
    print_said(y_name, y);
    print_different(x_name, x, y_name, y);
    if (wrong & (BIT(GUARDS) | BIT(BYTES))) {
        print_guards(x_name, x);
        print_guards(y_name, y);
    }
    return 0;
}

int report_missing(const char *kind, int n)
{
    found = BIT(NEVER);
    if (!quiet)
        printf("parts: %s: number %d never came\n", kind, n);
    return 0;
}
