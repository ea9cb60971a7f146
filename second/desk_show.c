/* desk_show.c - how things are shown, by docs/LISTING.md: bytes, places, refusals, an
 * instruction, and the lines of a run's last part. */
#include "desk.h"
#include "lines.h"

#include <inttypes.h>
#include <string.h>

/* ---- Small pieces ---- */

uint32_t stride_of(uint32_t code) { return 16u << code; }

const char *way_name(enum way way)
{
    static const char *const names[] = { [ROW] = "row", [COLUMN] = "column", [WORD] = "word" };

    return names[way];
}

static int all_same(const uint8_t *bytes, size_t n)
{
    for (size_t i = 1; i < n; i++)
        if (bytes[i] != bytes[0])
            return 0;
    return 1;
}

/* A word of four bytes is never cut short to one of them. */
void show_bytes(const uint8_t *bytes, size_t n)
{
    if (n == 16 && all_same(bytes, n)) {
        printf(" all %02x", bytes[0]);
        return;
    }
    for (size_t i = 0; i < n; i++)
        printf(" %02x", bytes[i]);
}

static const char *reason(uint32_t answer)
{
    static const char *const reasons[] = {
        [SECOND_DONE] = "done",
        [SECOND_OTHER_UNIT] = "opcode below 0x80 or above 0xdf",
        [SECOND_UNDOCUMENTED] = "opcode not documented",
        [SECOND_BAD_SIDE] = "side index above 31",
        [SECOND_BAD_MASK] = "side mask word above 0x1ffff",
        [SECOND_BAD_LENGTH] = "", /* no answer to a listing or to a pipe */
        [SECOND_BAD_LIST] = "bytes left over that make no whole triple", /* of a pipe alone */
        [SECOND_BUDGET] = "budget spent, the list is not finished",
    };

    return reasons[answer];
}

void show_refused(uint32_t answer) { printf("refused, %" PRIu32 " (%s)", answer, reason(answer)); }

/* ---- Places ---- */

static void show_store_place(uint32_t index)
{
    printf("store bank %" PRIu32 " cell %" PRIu32 " %s byte", index / 512, index % 512 / 2,
           index % 2 == 0 ? "low" : "high");
}

void show_place(uint32_t place)
{
    static const struct { uint32_t first, halves; const char *name, *even, *odd; } kinds[] = {
        { SECOND_PLACE_VC, 2, "$vc", " signs", " zeros" },
        { SECOND_PLACE_C, 2, "$c", " sign and zero", " end" },
        { SECOND_PLACE_V, 1, "$v", "", "" },
        { SECOND_PLACE_R, 1, "$r", "", "" },
        { SECOND_PLACE_A, 2, "$a", " low", " high" },
    };
    size_t k = 0;

    if (place >= SECOND_PLACE_DS) {
        show_store_place(place - SECOND_PLACE_DS);
        return;
    }
    while (place < kinds[k].first)
        k++;
    uint32_t i = place - kinds[k].first;
    printf("%s%" PRIu32 "%s", kinds[k].name, i / kinds[k].halves,
           i % kinds[k].halves ? kinds[k].odd : kinds[k].even);
}

/* ---- An instruction ---- */

void show_step(const struct step *step)
{
    uint8_t line[SECOND_LINE];
    uint32_t length;

    if (second_write_line(step->word, line, sizeof line, &length) == 0)
        printf("%.*s", (int)length - 1, (const char *)line);
    else
        printf("%08" PRIx32, step->word);
    if (step->side != (step->word >> 9 & 31) || step->mask != 0)
        printf(" @ %" PRIu32, step->side);
    if (step->mask != 0)
        printf(" 0x%" PRIx32, step->mask);
}

/* ---- Registers ---- */

uint32_t register_word(const struct state *s, const struct thing *thing)
{
    const uint32_t *const words[] = {
        [IN_A] = s->a, [IN_R] = s->r, [IN_C] = s->c, [IN_VC] = s->vc
    };

    return words[thing->kind][thing->number];
}

static void show_a(uint32_t n, uint32_t word)
{
    printf("$a%" PRIu32 " addr 0x%04" PRIx32 " limit 0x%04" PRIx32 " stride 0x%" PRIx32, n,
           word & 0xffff, word >> 16 & 0x3fff, stride_of(word >> 30));
}

/* Bits that are no flags have no names, so they are shown only in a whole word. */
static void show_c(uint32_t n, uint32_t word)
{
    if ((word & ~0x700u) != 0)
        printf("$c%" PRIu32 " 0x%08" PRIx32, n, word);
    else
        printf("$c%" PRIu32 " sign %" PRIu32 " zero %" PRIu32 " end %" PRIu32, n,
               word >> 8 & 1, word >> 9 & 1, word >> 10 & 1);
}

static void show_vc(uint32_t n, uint32_t word)
{
    printf("$vc%" PRIu32 " signs 0x%04" PRIx32 " zeros 0x%04" PRIx32, n, word & 0xffff,
           word >> 16);
}

void show_register(const struct thing *thing, const struct state *state)
{
    uint32_t n = thing->number, word = thing->kind == IN_V ? 0 : register_word(state, thing);

    if (thing->kind == IN_A)
        show_a(n, word);
    else if (thing->kind == IN_R)
        printf("$r%" PRIu32 " 0x%08" PRIx32, n, word);
    else if (thing->kind == IN_C)
        show_c(n, word);
    else if (thing->kind == IN_VC)
        show_vc(n, word);
    else {
        printf("$v%" PRIu32, n);
        show_bytes(state->v + 16 * n, 16);
    }
    printf("\n");
}

/* ---- The data store ---- */

static void show_row(enum way way, const struct thing *thing, const uint8_t *ds)
{
    struct access access = access_at(way, thing->number, thing->more);
    uint8_t bytes[16];

    fetch(&access, ds, bytes);
    printf("%s 0x%04" PRIx32 " stride 0x%" PRIx32, way_name(way), access.addresses[0],
           stride_of(access.code));
    show_bytes(bytes, 16);
    printf("\n");
}

/* The two bytes of a cell lie side by side, and so do eight cells. */
static void show_cells(uint32_t bank, uint32_t cell, const uint8_t *ds)
{
    printf("bank %" PRIu32 " cell %" PRIu32, bank, cell);
    show_bytes(ds + bank * 512 + cell * 2, 16);
    printf("\n");
}

static void show_bank(uint32_t bank, const uint8_t *ds)
{
    static const uint8_t zeros[16];
    int shown = 0;

    for (uint32_t cell = 0; cell < 256; cell += 8)
        if (memcmp(ds + bank * 512 + cell * 2, zeros, 16) != 0) {
            show_cells(bank, cell, ds);
            shown = 1;
        }
    if (!shown)
        show_cells(bank, 0, ds);
}

/* ---- A line of the last part ---- */

static void show_banks(const uint32_t *banks)
{
    printf("banks");
    for (int i = 0; i < BANKS; i++)
        printf(" %" PRIu32, banks[i]);
    printf("\n");
}

void show_thing(const struct thing *thing, const struct outcome *outcome)
{
    const uint8_t *ds = outcome->state.ds;

    switch (thing->kind) {
    case IN_A: case IN_R: case IN_C: case IN_VC: case IN_V:
        show_register(thing, &outcome->state);
        break;
    case A_ROW: show_row(ROW, thing, ds); break;
    case A_COLUMN: show_row(COLUMN, thing, ds); break;
    case A_BANK: show_bank(thing->number, ds); break;
    case EIGHT_CELLS: show_cells(thing->number, thing->more, ds); break;
    case THE_ANSWER:
        printf("answer %" PRIu32 " # %s\n", outcome->answer, reason(outcome->answer));
        break;
    case THE_STEPS: printf("steps %" PRIu32 "\n", outcome->steps); break;
    case THE_CELLS: printf("cells %" PRIu64 "\n", outcome->cells); break;
    case THE_CLIPPED: printf("clipped %" PRIu64 "\n", outcome->clipped); break;
    case THE_BANKS: show_banks(outcome->banks); break;
    }
}
