/* desk.h - what the files of the program desk share: the input and its lines, what a
 * listing and EXPECTED say, what a run leaves, and how it is shown. docs/LISTING.md has
 * every form; the names here are the page's. */
#ifndef DESK_H
#define DESK_H

#include "vp1_second.h"

#include <stddef.h>
#include <stdint.h>
#include <stdio.h>

/* Of the program, by the page's table. */
enum status { STATUS_DONE, STATUS_FAILED, STATUS_INPUT, STATUS_OUTPUT };

/* ---- The input: desk_text.c ---- */

enum { INPUT_LONGEST = 65535, FAULT_SHOWN = 64 };

/* Bytes of any value: no zero ends them. */
struct text { const uint8_t *bytes; size_t length; };

/* What is read, and where: a file, or an argument of explain, which has no file and whose
 * lines are not counted. */
struct input {
    const char *command, *file;
    uint8_t bytes[INPUT_LONGEST + 1]; /* one more, which is there to be found too much */
    size_t length, met;               /* the bytes, and those of the lines that were taken */
    size_t line;                      /* the number of the last line taken */
    uint8_t left[INPUT_LONGEST];      /* what is left of that line */
};

/* A line without its comment, one space between two texts, and those of its texts that
 * were not taken yet. It stands in its input and holds until the next line is taken. */
struct line { const struct input *in; struct text whole, rest; };

/* Those that can fail return whether all is well; if not, they have said what is wrong. */
int read_file(struct input *in, const char *command, const char *file);
int read_argument(struct input *in, const char *argument, struct line *line);
int refuse_input(const struct input *in, const char *message); /* returns 0 */

/* The next line that has a text; returns 0 where there is none. */
int next_line(struct input *in, struct line *line);
void rewind_lines(struct input *in);

/* The next text. It is empty where there is none: no text is. */
struct text next_text(struct line *line);
int is(struct text text, const char *name);

/* Says that the text, or where it is empty the whole line, is wrong; returns 0. Where
 * the message has to be put together, fault_begins says all that stands before it. */
int fault(const struct line *line, struct text text, const char *message);
void fault_begins(const struct line *line, struct text text);
void show_text(FILE *to, struct text text, size_t most);

/* Whether the text is such a number, and which. */
int is_number(struct text text, uint32_t *value);
int is_byte(struct text text, uint8_t *value);
int is_word(struct text text, uint32_t *value);

/* Take a text, and say what is wrong if it is none of these, or if there is one left. */
int read_number(struct line *line, uint32_t most, const char *expected, uint32_t *value);
int read_stride(struct line *line, uint32_t *code);
int read_byte(struct line *line, uint8_t *value);
int end_of_line(struct line *line);

/* ---- The data store: desk_store.c ---- */

enum way { ROW, COLUMN, WORD };

/* The access of a load or store, or of a row or column that is shown: its list of
 * addresses, their stride code, and the base register where there is one. */
struct access { enum way way; uint32_t base, code, count, addresses[16]; };

/* Where the byte of an address lies in the store: bank x 512 + cell x 2 + hilo. */
uint32_t store_index(uint32_t address, uint32_t code);
struct access access_at(enum way way, uint32_t address, uint32_t code);

/* Whether the word is a load or store, and its access, with these registers $a. */
int access_of(uint32_t word, const uint32_t *a, struct access *access);
void fetch(const struct access *access, const uint8_t *ds, uint8_t *bytes);

/* ---- What is said: desk_read.c, desk_step.c ---- */

enum { STEPS_MOST = 1024, SHOWS_MOST = 64, BANKS = 16 };

struct state {
    uint8_t ds[SECOND_DS], v[SECOND_V];
    uint32_t a[SECOND_A], r[SECOND_R], c[SECOND_C], vc[SECOND_VC];
};

/* The six pieces, as the calls of the machine take them. */
#define PIECES(s) (s)->ds, SECOND_DS, (s)->a, SECOND_A, (s)->r, SECOND_R, \
    (s)->c, SECOND_C, (s)->vc, SECOND_VC, (s)->v, SECOND_V

/* No listing reaches the highest budget, so that one stands for none. */
struct start { struct state state; uint32_t budget; };

struct step { uint32_t word, side, mask; };

/* A thing that has a line in the last part of a run. The first four kinds are words. */
enum kind {
    IN_A, IN_R, IN_C, IN_VC, IN_V,
    A_ROW, A_COLUMN, A_BANK, EIGHT_CELLS,
    THE_ANSWER, THE_STEPS, THE_CELLS, THE_CLIPPED, THE_BANKS
};

/* number: the register's, the address or the bank; more: the stride code or the cell. */
struct thing { enum kind kind; uint32_t number, more; };

/* What a thing is set to or expected to be: the bits of a word that are named, or
 * sixteen bytes, or numbers (of all but the banks only the first). */
struct value { uint32_t word, bits; uint8_t bytes[16]; uint32_t numbers[BANKS]; };

struct listing {
    struct start start;
    struct step steps[STEPS_MOST];
    struct thing shows[SHOWS_MOST];
    size_t n_steps, n_shows;
};

typedef int start_reader(struct line *line, struct start *start);

/* What reads the rest of a line .set, .bytes, .fill or .budget; NULL for another text. */
start_reader *start_line(struct text first);
void empty_start(struct start *start);

/* A register by its name; the value behind it, up to the end of the line; the rest of
 * row, column and of bank and cell; sixteen bytes, up to the end of the line. */
int is_register(struct text text, struct thing *thing);
int read_value(struct line *line, enum kind kind, struct value *value);
int read_row(struct line *line, enum kind kind, struct thing *thing);
int read_bank(struct line *line, struct thing *thing);
int read_cell(struct line *line, struct thing *thing);
int read_sixteen(struct line *line, uint8_t *bytes);

int read_step(struct line *line, struct step *step);
int read_listing(struct input *in, const char *command, const char *file,
                 struct listing *listing);

/* ---- A run: desk_run.c ---- */

struct outcome {
    struct state state;
    uint32_t answer, steps;
    uint64_t cells, clipped;
    uint32_t banks[BANKS];
};

/* Runs the steps of the listing from this start, and shows them if that is wanted. */
void run_steps(const struct listing *listing, const struct start *start, int shown,
               struct outcome *outcome);
void show_last_part(const struct listing *listing, const struct outcome *outcome, int all);

/* ---- How things are shown: desk_show.c ---- */

uint32_t register_word(const struct state *state, const struct thing *thing);

/* The thing's line in the last part, with its line feed. */
void show_thing(const struct thing *thing, const struct outcome *outcome);
void show_register(const struct thing *thing, const struct state *state);

/* The instruction's line, or its word where it has none, and its side inputs. */
void show_step(const struct step *step);
void show_refused(uint32_t answer);
void show_place(uint32_t place);

/* Each byte after a space. */
void show_bytes(const uint8_t *bytes, size_t n);
const char *way_name(enum way way);
uint32_t stride_of(uint32_t code);

/* ---- The other commands: desk_check.c, desk_explain.c ---- */

enum status check(const char *file, const char *expected);
enum status explain(const char *step, const char *value); /* NULL: no value */

#endif
