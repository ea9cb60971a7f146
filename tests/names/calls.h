/* calls.h - one call, made of both engines and compared: its answer, the number that it hands back, and every byte that was lent. */
#ifndef NAMES_CALLS_H
#define NAMES_CALLS_H

#include "vp1_names.h"

enum call { WRITE, READ, CALLS };

/* What a call must give, beyond that both engines give the same: anything; 0; anything but 0; this line (WRITE) or this word (READ). */
enum must { ANYTHING, SUCCESS, REFUSAL, THIS };

struct asked {
    enum call call;
    uint32_t word;       /* WRITE: the word; READ: the one that must be read, with THIS */
    const uint8_t *text; /* READ: the text; WRITE: the line that must be written, with THIS */
    size_t n;            /* the text's length */
    size_t room;         /* WRITE: the output's length */
    enum must must;
};

/* What was answered. The number that a call writes, a length or a word, lies between two guards. */
enum { UNTOUCHED = 0xdd };

struct outcome {
    uint32_t answer, front, number, back;
};

/* What is lent lies on a page, at GUARD, with a guard before it and one right behind it: as it was before the call, and as each engine left it. */
enum { BEFORE, OURS, THEIRS, PAGES };
enum { GUARD = 64, MOST = 70000 };

extern uint8_t pages[PAGES][GUARD + MOST + GUARD];
extern uint8_t pattern[GUARD]; /* what a guard holds */

/* How many bytes are lent. */
size_t lent(const struct asked *q);

/* What an engine handed over. */
struct handed {
    uint8_t *page;
    struct outcome *said;
};

/* How often each call gave each answer, in this part; and how many lines had VP1_LINE bytes, in all. */
enum { ANSWERS = VP1_SHORT + 1 };
extern unsigned long answers[CALLS][ANSWERS], longest;

/* Whether the call can give the answer. */
int can_answer(enum call call, uint32_t answer);

/* Sets the guards' bytes: once, before all. */
void set_pattern(void);

/* Makes the call of both engines and compares. Hands over the second engine's outcome. Where the two differ, or what both gave cannot be right,
   reports it and returns 0. */
int ask(const struct asked *q, struct outcome *said);

/* A line, or nothing where a word has none. */
struct line {
    size_t n;
    uint8_t bytes[VP1_LINE];
};

/* Writes the line of the word, in both engines: there is one exactly if documented.h lists the opcode. */
int write_word(uint32_t word, struct line *line);

/* Reads the text, in both engines. If it is a line, it must be the line of the word that was read, which is handed over. */
int read_back(const uint8_t *text, size_t n, enum must must, uint32_t *word);

#endif
