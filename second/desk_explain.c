/* desk_explain.c - the command explain, by docs/LISTING.md: one instruction, its line, its
 * word, its fields, its places and its addresses. */
#include "desk.h"
#include "lines.h"

#include <inttypes.h>
#include <string.h>

/* ---- Fields ---- */

enum field {
    NONE, DST, SRC1, SRC2, SRC3, CDST, VCDST, CMPOP, BITOP, SWZLOHI, BIMM, UIMM, IMM, IMM16
};

enum form { DECIMAL, HEXADECIMAL, SIGNED };

static const struct { const char *name; uint32_t first, width; enum form form; } fields[] = {
    [DST] = { "DST", 19, 5, DECIMAL },
    [SRC1] = { "SRC1", 14, 5, DECIMAL },
    [SRC2] = { "SRC2", 9, 5, DECIMAL },
    [SRC3] = { "SRC3", 4, 5, DECIMAL },
    [CDST] = { "CDST", 0, 3, DECIMAL },
    [VCDST] = { "VCDST", 0, 3, DECIMAL },
    [CMPOP] = { "CMPOP", 19, 4, HEXADECIMAL },
    [BITOP] = { "BITOP", 3, 4, HEXADECIMAL },
    [SWZLOHI] = { "SWZLOHI", 3, 1, DECIMAL },
    [BIMM] = { "BIMM", 3, 8, HEXADECIMAL },
    [UIMM] = { "UIMM", 3, 11, HEXADECIMAL },
    [IMM] = { "IMM", 3, 11, SIGNED },
    [IMM16] = { "IMM16", 0, 16, HEXADECIMAL },
};

/* By opcode, in the order of the operands of the chapters' tables. */
static const uint8_t fields_of[256][6] = {
    [0x88] = { VCDST, DST, SRC1, SRC2 },        /* vmin s */
    [0x89] = { VCDST, DST, SRC1, SRC2 },        /* vmax s */
    [0x8a] = { VCDST, DST, SRC1 },              /* vabs s */
    [0x8b] = { VCDST, DST, SRC1 },              /* vneg s */
    [0x8c] = { VCDST, DST, SRC1, SRC2 },        /* vadd s */
    [0x8d] = { VCDST, DST, SRC1, SRC2 },        /* vsub s */
    [0x8e] = { VCDST, DST, SRC1, SRC2 },        /* vsar */
    [0x8f] = { CMPOP, VCDST, SRC1, SRC2 },      /* vcmpad */
    [0x94] = { BITOP, VCDST, DST, SRC1, SRC2 }, /* vbitop */
    [0x98] = { VCDST, DST, SRC1, SRC2 },        /* vmin u */
    [0x99] = { VCDST, DST, SRC1, SRC2 },        /* vmax u */
    [0x9a] = { VCDST, DST, SRC1 },              /* vabs u */
    [0x9b] = { SWZLOHI, DST, SRC1, SRC2, SRC3 }, /* vswz */
    [0x9c] = { VCDST, DST, SRC1, SRC2 },        /* vadd u */
    [0x9d] = { VCDST, DST, SRC1, SRC2 },        /* vsub u */
    [0x9e] = { VCDST, DST, SRC1, SRC2 },        /* vshr */
    [0x9f] = { VCDST, DST, SRC1, SRC2, SRC3 },  /* vadd9 */
    [0xa4] = { VCDST, DST, SRC1, SRC2, SRC3 },  /* vclip */
    [0xa5] = { VCDST, DST, SRC1, SRC2 },        /* vminabs */
    [0xa8] = { VCDST, DST, SRC1, BIMM },        /* vmin s */
    [0xa9] = { VCDST, DST, SRC1, BIMM },        /* vmax s */
    [0xaa] = { VCDST, DST, SRC1, BIMM },        /* vand */
    [0xab] = { VCDST, DST, SRC1, BIMM },        /* vxor */
    [0xac] = { VCDST, DST, SRC1, BIMM },        /* vadd s */
    [0xad] = { VCDST, DST, BIMM },              /* vmov */
    [0xae] = { VCDST, DST, SRC1, BIMM },        /* vsar */
    [0xaf] = { VCDST, DST, SRC1, BIMM },        /* vor */
    [0xb8] = { VCDST, DST, SRC1, BIMM },        /* vmin u */
    [0xb9] = { VCDST, DST, SRC1, BIMM },        /* vmax u */
    [0xba] = { VCDST, DST, SRC1 },              /* mov */
    [0xbb] = { DST },                           /* mov from $vc */
    [0xbc] = { VCDST, DST, SRC1, BIMM },        /* vadd u */
    [0xbd] = { VCDST, DST, SRC1, BIMM },        /* vsub u */
    [0xbe] = { VCDST, DST, SRC1, BIMM },        /* vshr */
    [0xbf] = { NONE },                          /* vnop */
    [0xc0] = { DST, CDST, SRC1, SRC2 },         /* ldavh */
    [0xc1] = { DST, CDST, SRC1, SRC2 },         /* ldavv */
    [0xc2] = { DST, CDST, SRC1, SRC2 },         /* ldas */
    [0xc4] = { SRC1, CDST, DST, SRC2 },         /* stavh */
    [0xc5] = { SRC1, CDST, DST, SRC2 },         /* stavv */
    [0xc6] = { SRC1, CDST, DST, SRC2 },         /* stas */
    [0xca] = { CDST, DST, SRC2 },               /* aadd */
    [0xcb] = { CDST, DST, SRC1, SRC2 },         /* add */
    [0xcc] = { DST, IMM16 },                    /* setlo */
    [0xcd] = { DST, IMM16 },                    /* sethi */
    [0xd0] = { DST, CDST, SRC1, IMM },          /* ldavh */
    [0xd1] = { DST, CDST, SRC1, IMM },          /* ldavv */
    [0xd2] = { DST, CDST, SRC1, IMM },          /* ldas */
    [0xd3] = { BITOP, CDST, DST, SRC1, SRC2 },  /* bitop */
    [0xd4] = { SRC1, CDST, DST, IMM },          /* stavh */
    [0xd5] = { SRC1, CDST, DST, IMM },          /* stavv */
    [0xd6] = { SRC1, CDST, DST, IMM },          /* stas */
    [0xd8] = { DST, CDST, SRC1, UIMM },         /* ldvh */
    [0xd9] = { DST, CDST, SRC1, UIMM },         /* ldvv */
    [0xda] = { DST, CDST, SRC1, UIMM },         /* lds */
    [0xdc] = { SRC1, CDST, DST, UIMM },         /* stvh */
    [0xdd] = { SRC1, CDST, DST, UIMM },         /* stvv */
    [0xde] = { SRC1, CDST, DST, UIMM },         /* sts */
    [0xdf] = { NONE },                          /* anop */
};

static void show_field(uint32_t word, enum field f)
{
    uint32_t most = (1u << fields[f].width) - 1, value = word >> fields[f].first & most;

    printf(", %s ", fields[f].name);
    if (fields[f].form == HEXADECIMAL)
        printf("0x%" PRIx32, value);
    else if (fields[f].form == SIGNED && value > most / 2)
        printf("-%" PRIu32, most + 1 - value);
    else
        printf("%" PRIu32, value);
}

static void show_fields(uint32_t word)
{
    uint32_t op = word >> 24;

    printf("fields opcode 0x%02" PRIx32, op);
    for (const uint8_t *f = fields_of[op]; *f != NONE; f++)
        show_field(word, (enum field)*f);
    printf("\n");
}

/* The word of its line, if that is another one. */
static void show_normal(uint32_t word)
{
    uint8_t line[SECOND_LINE];
    uint32_t length, normal;

    second_write_line(word, line, sizeof line, &length);
    if (second_read_line(line, length, &normal) == 0 && normal != word)
        printf("normal 0x%08" PRIx32 "\n", normal);
}

/* ---- Places ---- */

/* How many of the places, from the first on, are bytes of the store. */
static uint32_t store_places(const uint32_t *places, uint32_t n)
{
    uint32_t i = 0;

    while (i < n && places[i] >= SECOND_PLACE_DS)
        i++;
    return i;
}

static void show_places(const char *name, const uint32_t *places, uint32_t n)
{
    const char *before = " ";

    printf("%s", name);
    if (n == 0)
        printf(" nothing");
    for (uint32_t i = 0; i < n; before = ", ") {
        uint32_t bytes = store_places(places + i, n - i);

        printf("%s", before);
        if (bytes > 0)
            printf("%" PRIu32 " bytes of the store", bytes);
        else
            show_place(places[i]);
        i += bytes > 0 ? bytes : 1;
    }
    printf("\n");
}

static void show_all_places(const struct step *step, const struct state *s)
{
    uint32_t places[SECOND_PLACES], reads, writes;

    second_places(step->word, step->side, step->mask, PIECES(s), places, SECOND_PLACES, &reads,
                  &writes);
    show_places("reads", places, reads);
    show_places("writes", places + reads, writes);
}

/* ---- Addresses ---- */

static void show_address(uint32_t address, uint32_t code)
{
    uint32_t index = store_index(address, code);

    printf("0x%04" PRIx32 " bank %" PRIu32 " cell %" PRIu32 " %s\n", address, index / 512,
           index % 512 / 2, index % 2 == 0 ? "low" : "high");
}

static void show_access(const struct step *step, const struct state *state)
{
    struct access x;

    if (!access_of(step->word, state->a, &x))
        return;
    show_register(&(struct thing){ IN_A, x.base, 0 }, state);
    for (uint32_t i = 0; i < x.count; i++)
        show_address(x.addresses[i], x.code);
}

/* ---- The command ---- */

/* Which register is the base does not depend on what it holds. */
static void set_base(struct state *state, uint32_t word, uint32_t value)
{
    struct access x;

    if (access_of(word, state->a, &x))
        state->a[x.base] = value;
}

/* The step is done on a copy, for its answer and its cells. What it clips depends on the
 * registers, which hold nothing here, and is not shown. */
static enum status show_explained(const struct step *step, const struct state *state)
{
    static struct state after;
    uint64_t cells, clipped;

    after = *state;
    uint32_t answer = second_step(step->word, step->side, step->mask, PIECES(&after), &cells,
                                  &clipped);
    show_step(step);
    printf("\nword 0x%08" PRIx32 "\n", step->word);
    if (answer != SECOND_OTHER_UNIT && answer != SECOND_UNDOCUMENTED) {
        show_normal(step->word);
        show_fields(step->word);
    }
    if (answer != SECOND_DONE) {
        show_refused(answer);
        printf("\n");
        return STATUS_FAILED;
    }
    show_all_places(step, state);
    printf("cells %" PRIu64 "\n", cells);
    show_access(step, state);
    return STATUS_DONE;
}

enum status explain(const char *step_text, const char *value_text)
{
    static struct input in;
    static struct state state;
    struct line line;
    struct step step;
    struct value value = { .word = 0 };

    if (!read_argument(&in, step_text, &line) || !read_step(&line, &step))
        return STATUS_INPUT;
    if (value_text != NULL &&
        (!read_argument(&in, value_text, &line) || !read_value(&line, IN_A, &value)))
        return STATUS_INPUT;
    set_base(&state, step.word, value.word);
    return show_explained(&step, &state);
}
