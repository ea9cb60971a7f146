/* pipe.c - the program pipe: runs a list of triples that standard input brings as bytes,
 * on a machine of zeros, and shows its answer and counts, by docs/PARTS.md. */
#include "desk.h"

#include <string.h>

enum { WRONG_SHOWN = 64 };

static enum status run_input(uint32_t budget)
{
    static const enum kind shown[] = { THE_ANSWER, THE_STEPS, THE_CELLS, THE_CLIPPED };
    static struct outcome o;
    uint32_t run[SECOND_PARTS];
    int byte;

    second_begin(budget, run, SECOND_PARTS);
    while ((byte = getchar()) != EOF)
        second_part(&(uint8_t){ (uint8_t)byte }, 1, PIECES(&o.state), run, SECOND_PARTS,
                    &o.steps, &o.cells, &o.clipped);
    if (ferror(stdin)) {
        fprintf(stderr, "pipe: -: cannot be read\n");
        return STATUS_INPUT;
    }
    o.answer = second_end(run, SECOND_PARTS, &o.steps, &o.cells, &o.clipped);
    for (size_t i = 0; i < sizeof shown / sizeof shown[0]; i++)
        show_thing(&(struct thing){ shown[i], 0, 0 }, &o);
    return o.answer == SECOND_DONE ? STATUS_DONE : STATUS_FAILED;
}

static enum status command(int n, char **words)
{
    uint32_t budget = UINT32_MAX;

    /* It is for the other program of the same name, which needs it to tell its status. */
    if (n > 0 && strcmp(words[0], "--tell") == 0)
        n--, words++;
    if (n > 1) {
        fprintf(stderr, "usage: pipe [BUDGET]\n");
        return STATUS_INPUT;
    }
    if (n == 1) {
        struct text text = { (const uint8_t *)words[0], strlen(words[0]) };

        if (!is_number(text, &budget)) {
            fprintf(stderr, "pipe: ");
            show_text(stderr, text, WRONG_SHOWN);
            fprintf(stderr, ": expected a number from 0 to 4294967295\n");
            return STATUS_INPUT;
        }
    }
    return run_input(budget);
}

int main(int argc, char **argv)
{
    enum status status = command(argc - 1, argv + 1);

    return fflush(stdout) == 0 && !ferror(stdout) ? (int)status : STATUS_OUTPUT;
}
