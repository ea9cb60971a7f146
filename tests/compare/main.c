/* main.c - compares the proved library with the second simulator, part by part, and says how much was compared. Exits with 1 at the first
 * difference, which is printed whole; docs/TESTS.md says what is drawn and how to read a difference.
 *
 * By the environment: SEED=HEX draws other cases; SLIP=N makes the slip N on the way, which must be reported; SLIP=all tries every slip. */
#include "calls.h"
#include "parts.h"
#include "report.h"
#include "slips.h"

#include <inttypes.h>
#include <stdio.h>
#include <stdlib.h>
#include <string.h>

static const struct {
    const char *name, *what;
    int (*run)(void);
} parts[] = {
    {"opcodes", "single steps of the documented opcodes", opcodes},
    {"answers", "words of all 256 opcodes, in all four calls", all_opcodes},
    {"lengths", "calls with wrong lengths and refused words", lengths},
    {"lists", "lists, each by single steps too", lists},
    {"places", "lists of places", places},
    {"pairs", "pairs of triples, and both orders of the free ones", pairs},
    {"ends", "steps of vclip: every byte between every two ends", ends},
    {"sums", "steps of vadd, vsub, vneg, vabs and vadd9: every two values", sums},
};

enum { PARTS = sizeof parts / sizeof parts[0] };

int brief;

unsigned long share(unsigned long n) { return brief ? n / 64 : n; }

/* An answer that a call can give and never gave would mean that a part draws nothing for it. */
static int every_answer(void)
{
    for (int c = 0; c < CALLS; c++) {
        if (!quiet)
            printf("answers of %s:", call_names[c]);
        for (uint32_t n = 0; n <= last_answer[c]; n++) {
            if (!quiet)
                printf(" %" PRIu32 " %lu times%s", n, answers[c][n], n < last_answer[c] ? "," : "\n");
            if (answers[c][n] == 0) {
                printf("\ncompare: %s never answered %" PRIu32 "\n", call_names[c], n);
                strcpy(differed, "an answer that never came");
                return 0;
            }
        }
    }
    return 1;
}

static int everything(uint64_t seed)
{
    memset(answers, 0, sizeof answers);
    differed[0] = '\0';
    for (int i = 0; i < PARTS; i++) {
        begin_part(parts[i].name, i, seed);
        if (!parts[i].run())
            return 0;
        if (!quiet)
            printf("%s: %lu %s\n", parts[i].name, at.number, parts[i].what);
        fflush(stdout);
    }
    return print_pairs() && every_answer();
}

/* Whether the words that differed, with commas between, have this one. */
static int named(const char *item)
{
    char list[sizeof differed];

    strcpy(list, differed);
    for (char *word = strtok(list, ","); word; word = strtok(NULL, ","))
        if (strcmp(word + (word[0] == ' '), item) == 0)
            return 1;
    return 0;
}

/* Every slip must be reported as what it is; and without one there must be nothing to report, or a report would say little. */
static int all_slips(uint64_t seed)
{
    brief = quiet = 1;
    for (int n = NO_SLIP; n <= slip_count; n++) {
        int clean;

        make_slip(n);
        clean = everything(seed);
        if (n == NO_SLIP ? !clean : clean || !named(slip_shows(n))) {
            printf("compare: slip %d (%s): %s\n", n, n == NO_SLIP ? "none" : slip_name(n), clean ? "not reported" : differed);
            return 0;
        }
        if (n != NO_SLIP)
            printf("slip %d, %s: found in %s, case %lu: %s\n", n, slip_name(n), at.part, at.number, differed);
    }
    return 1;
}

int main(void)
{
    const char *seed_text = getenv("SEED"), *slip_text = getenv("SLIP");
    uint64_t seed = seed_text ? strtoull(seed_text, NULL, 16) : 0x9e3779b97f4a7c15;
    int well, n = slip_text ? atoi(slip_text) : NO_SLIP;

    if (slip_text && strcmp(slip_text, "all") == 0) {
        well = all_slips(seed);
    } else if (slip_text && (n < FIRST_SLIP || n > slip_count)) {
        fprintf(stderr, "compare: SLIP is all, or a number from %d to %d\n", FIRST_SLIP, slip_count);
        return 2;
    } else {
        make_slip(n);
        well = everything(seed);
    }
    return fflush(stdout) == 0 && !ferror(stdout) && well ? EXIT_SUCCESS : EXIT_FAILURE;
}
