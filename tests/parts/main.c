/* main.c - compares lists in parts, of the proved library and of the second simulator, and says how much was compared. Exits with 1 at the first
 * difference, which is printed whole; docs/TESTS.md says what is drawn and how to read a difference.
 *
 * By the environment: SEED=HEX draws other cases; SLIP=N makes the slip N on the way, which must be reported; SLIP=all tries every slip. */
#include "kinds.h"
#include "parts.h"
#include "report.h"
#include "slips.h"

#include <stdio.h>
#include <stdlib.h>
#include <string.h>

static const struct {
    const char *name, *what;
    int (*run)(void);
} parts[] = {
    {"cuts", "lists, cut in all ways", cuts},
    {"borders", "long lists, cut and stopped around multiples of 160 triples", borders},
    {"lengths", "runs with a wrong length of a piece", lengths},
    {"words", "runs with words of another number, or with words that were changed", words},
    {"copies", "runs that were copied, and both carried on", copies},
};

enum { PARTS = sizeof parts / sizeof parts[0] };

int brief;

unsigned long share(unsigned long n) { return brief ? n / 16 : n; }

static int everything(uint64_t seed)
{
    forget_kinds();
    found = 0;
    for (int i = 0; i < PARTS; i++) {
        begin_part(parts[i].name, i, seed);
        if (!parts[i].run())
            return 0;
        if (!quiet)
            printf("%s: %lu %s\n", parts[i].name, at.number, parts[i].what);
        fflush(stdout);
    }
    return every_kind();
}

/* Every slip must be reported as what it is; and without one there must be nothing to report, or a report would say little. */
static int all_slips(uint64_t seed)
{
    brief = quiet = 1;
    for (int n = NO_SLIP; n <= slip_count(); n++) {
        int clean;

        make_slip(n);
        clean = everything(seed);
        if (n == NO_SLIP ? !clean : clean || !(found & slip_shows(n))) {
            printf("parts: slip %d (%s): %s", n, n == NO_SLIP ? "none" : slip_name(n), clean ? "not reported" : "");
            print_found();
            return 0;
        }
        if (n != NO_SLIP) {
            printf("slip %d, %s: found in %s, case %lu: ", n, slip_name(n), at.part, at.number);
            print_found();
        }
    }
    return 1;
}

int main(void)
{
    const char *seed_text = getenv("SEED"), *slip_text = getenv("SLIP");
    uint64_t seed = seed_text ? strtoull(seed_text, NULL, 16) : 0x9e3779b97f4a7c15;
    int well, n = slip_text ? atoi(slip_text) : NO_SLIP;

    if (slip_text && strcmp(slip_text, "all") == 0) {
        well = all_slips(seed);
    } else if (slip_text && (n < FIRST_SLIP || n > slip_count())) {
        fprintf(stderr, "parts: SLIP is all, or a number from %d to %d\n", FIRST_SLIP, slip_count());
        return 2;
    } else {
        make_slip(n);
        well = everything(seed);
    }
    return fflush(stdout) == 0 && !ferror(stdout) && well ? EXIT_SUCCESS : EXIT_FAILURE;
}
