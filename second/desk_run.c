/* desk_run.c - runs the steps of a listing on the second simulator and shows, by
 * docs/LISTING.md, what each did and changed, and what they leave. */
#include "desk.h"

#include <inttypes.h>
#include <string.h>

/* ---- Before a step ---- */

/* What is asked before a step is done, since it changes the state that is asked about:
 * its places, and whether it may be swapped with the next. */
struct ahead {
    uint32_t places[SECOND_PLACES], reads, writes;
    int followed;
    uint32_t next, clash, place, writer; /* next: may_swap's answer */
};

/* followed: step[1] is the next. */
static void look_ahead(const struct step *step, int followed, const struct state *s,
                       struct ahead *ahead)
{
    second_places(step->word, step->side, step->mask, PIECES(s), ahead->places, SECOND_PLACES,
                  &ahead->reads, &ahead->writes);
    ahead->followed = followed;
    if (followed)
        ahead->next = second_may_swap(step[0].word, step[0].side, step[0].mask, step[1].word,
                                      step[1].side, step[1].mask, PIECES(s), &ahead->clash,
                                      &ahead->place, &ahead->writer);
}

/* A cell is one number for its two bytes; it is entered once, though both may be listed. */
static void enter_cells(const struct ahead *ahead, uint32_t *banks)
{
    uint8_t entered[SECOND_DS / 2] = { 0 };

    for (uint32_t i = 0; i < ahead->reads + ahead->writes; i++) {
        if (ahead->places[i] < SECOND_PLACE_DS)
            continue;
        uint32_t cell = (ahead->places[i] - SECOND_PLACE_DS) / 2;
        if (!entered[cell])
            banks[cell / 256]++;
        entered[cell] = 1;
    }
}

/* ---- The step's line ---- */

static void show_verdict(const struct ahead *ahead)
{
    printf("; with the next: ");
    if (ahead->next != SECOND_DONE) {
        show_refused(ahead->next);
    } else if (ahead->clash == 0) {
        printf("free");
    } else {
        printf("clash at ");
        show_place(ahead->place);
        printf(", which the %s writes", ahead->writer == 1 ? "first" : "second");
    }
}

static void show_answer(uint32_t answer, uint64_t cells, uint64_t clipped,
                        const struct ahead *ahead)
{
    printf(": ");
    if (answer != SECOND_DONE) {
        show_refused(answer);
    } else {
        printf("done, %" PRIu64 " cell%s, %" PRIu64 " clipped", cells, cells == 1 ? "" : "s",
               clipped);
        if (ahead->followed)
            show_verdict(ahead);
    }
    printf("\n");
}

/* ---- What it changed ---- */

/* A number of so many hexadecimal digits; without any it is a flag. */
static void show_number(uint32_t n, int digits)
{
    if (digits == 0)
        printf("%" PRIu32, n);
    else
        printf("0x%0*" PRIx32, digits, n);
}

static void show_change(const char *file, uint32_t n, const char *part, int digits,
                        uint32_t old, uint32_t new)
{
    if (old == new)
        return;
    printf("  %s%" PRIu32 "%s ", file, n, part);
    show_number(old, digits);
    printf(" -> ");
    show_number(new, digits);
    printf("\n");
}

static void show_half_of_a(uint32_t n, int high, uint32_t old, uint32_t new)
{
    if (!high) {
        show_change("$a", n, " addr", 4, old & 0xffff, new & 0xffff);
        return;
    }
    show_change("$a", n, " limit", 4, old >> 16 & 0x3fff, new >> 16 & 0x3fff);
    show_change("$a", n, " stride", 2, stride_of(old >> 30), stride_of(new >> 30));
}

static void show_flags_of_c(uint32_t n, int end, uint32_t old, uint32_t new)
{
    if (end) {
        show_change("$c", n, " end", 0, old >> 10 & 1, new >> 10 & 1);
        return;
    }
    show_change("$c", n, " sign", 0, old >> 8 & 1, new >> 8 & 1);
    show_change("$c", n, " zero", 0, old >> 9 & 1, new >> 9 & 1);
}

static void show_flags_of_vc(uint32_t n, int zeros, uint32_t old, uint32_t new)
{
    if (zeros)
        show_change("$vc", n, " zeros", 4, old >> 16, new >> 16);
    else
        show_change("$vc", n, " signs", 4, old & 0xffff, new & 0xffff);
}

static void show_bytes_changed(const uint8_t *old, const uint8_t *new, size_t n)
{
    show_bytes(old, n);
    printf(" ->");
    show_bytes(new, n);
    printf("\n");
}

static void show_vector_changed(uint32_t n, const uint8_t *old, const uint8_t *new)
{
    if (memcmp(old, new, 16) == 0)
        return;
    printf("  $v%" PRIu32, n);
    show_bytes_changed(old, new, 16);
}

/* All the bytes of an access; its list is that of the state before the step. */
static void show_store_changed(uint32_t word, const struct state *old, const struct state *new)
{
    struct access x;
    uint8_t was[16], is_now[16];

    if (!access_of(word, old->a, &x))
        return;
    fetch(&x, old->ds, was);
    fetch(&x, new->ds, is_now);
    if (memcmp(was, is_now, x.count) == 0)
        return;
    printf("  %s 0x%04" PRIx32 " stride 0x%" PRIx32, way_name(x.way), x.addresses[0],
           stride_of(x.code));
    show_bytes_changed(was, is_now, x.count);
}

/* A place that is no byte of the store. */
static void show_place_changed(uint32_t place, const struct state *old, const struct state *new)
{
    uint32_t n, odd = place % 2; /* the kinds with two places each begin at even numbers */

    if (place >= SECOND_PLACE_VC) {
        n = (place - SECOND_PLACE_VC) / 2;
        show_flags_of_vc(n, odd == 1, old->vc[n], new->vc[n]);
    } else if (place >= SECOND_PLACE_C) {
        n = (place - SECOND_PLACE_C) / 2;
        show_flags_of_c(n, odd == 1, old->c[n], new->c[n]);
    } else if (place >= SECOND_PLACE_V) {
        n = place - SECOND_PLACE_V;
        show_vector_changed(n, old->v + 16 * n, new->v + 16 * n);
    } else if (place >= SECOND_PLACE_R) {
        n = place - SECOND_PLACE_R;
        show_change("$r", n, "", 8, old->r[n], new->r[n]);
    } else {
        n = place / 2;
        show_half_of_a(n, odd == 1, old->a[n], new->a[n]);
    }
}

static void show_changes(uint32_t word, const struct ahead *ahead, const struct state *old,
                         const struct state *new)
{
    const uint32_t *written = ahead->places + ahead->reads;
    int stored = 0;

    for (uint32_t i = 0; i < ahead->writes; i++) {
        if (written[i] < SECOND_PLACE_DS) {
            show_place_changed(written[i], old, new);
        } else if (!stored) { /* one line for all of them */
            show_store_changed(word, old, new);
            stored = 1;
        }
    }
}

/* ---- All steps ---- */

/* Does step i, and shows it if that is wanted. Returns whether it is done. */
static int do_step(const struct listing *listing, size_t i, int shown, struct outcome *o)
{
    static struct state old;
    const struct step *step = &listing->steps[i];
    struct ahead ahead;
    uint64_t cells, clipped;

    look_ahead(step, i + 1 < listing->n_steps, &o->state, &ahead);
    old = o->state;
    o->answer = second_step(step->word, step->side, step->mask, PIECES(&o->state), &cells,
                            &clipped);
    if (shown) {
        printf("%zu: ", i + 1);
        show_step(step);
        show_answer(o->answer, cells, clipped, &ahead);
        show_changes(step->word, &ahead, &old, &o->state);
    }
    if (o->answer != SECOND_DONE)
        return 0;
    enter_cells(&ahead, o->banks);
    o->steps++;
    o->cells += cells;
    o->clipped += clipped;
    return 1;
}

void run_steps(const struct listing *listing, const struct start *start, int shown,
               struct outcome *outcome)
{
    memset(outcome, 0, sizeof *outcome);
    outcome->state = start->state;
    for (size_t i = 0; i < listing->n_steps; i++) {
        if (outcome->steps == start->budget) {
            outcome->answer = SECOND_BUDGET;
            return;
        }
        if (!do_step(listing, i, shown, outcome))
            return;
    }
}

/* ---- The last part ---- */

static int is_zero(const struct thing *thing, const struct state *state)
{
    static const uint8_t zeros[16];

    if (thing->kind == IN_V)
        return memcmp(state->v + 16 * thing->number, zeros, 16) == 0;
    return register_word(state, thing) == 0;
}

static void show_registers(enum kind kind, uint32_t count, const struct outcome *outcome, int all)
{
    for (uint32_t n = 0; n < count; n++) {
        struct thing thing = { kind, n, 0 };

        if (all || !is_zero(&thing, &outcome->state))
            show_thing(&thing, outcome);
    }
}

void show_last_part(const struct listing *listing, const struct outcome *outcome, int all)
{
    static const enum kind counts[] = {
        THE_ANSWER, THE_STEPS, THE_CELLS, THE_CLIPPED, THE_BANKS
    };

    show_registers(IN_A, SECOND_A, outcome, all);
    show_registers(IN_R, SECOND_R, outcome, all);
    show_registers(IN_C, SECOND_C, outcome, all);
    show_registers(IN_VC, SECOND_VC, outcome, all);
    show_registers(IN_V, SECOND_V / 16, outcome, all);
    for (size_t i = 0; i < listing->n_shows; i++)
        show_thing(&listing->shows[i], outcome);
    for (size_t i = 0; i < sizeof counts / sizeof counts[0]; i++)
        show_thing(&(struct thing){ counts[i], 0, 0 }, outcome);
}
