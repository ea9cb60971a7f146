/* main.c - compares the proved library of names with the second program's lines, part by part, and says how much was compared. Exits with 1 at the
 * first difference, which is printed whole; docs/TESTS.md says what is drawn and how to read a difference.
 *
 * By the environment: SEED=HEX draws other cases; SLIP=N makes the slip N on the way, which must be reported; SLIP=all tries every slip. */
#include "parts.h"
#include "report.h"
#include "slips.h"

#include <stdio.h>
#include <stdlib.h>
#include <string.h>

static const struct {
    const char *name, *what;
    int (*run)(void);
} parts[] = {
    {"words", "words, each written and read, then its normal form", words},
    {"outputs", "outputs of all lengths", outputs},
    {"damaged", "damaged lines", damaged},
    {"bytes", "texts of any bytes", any_bytes},
    {"texts", "texts that are nearly lines", texts},
};

enum { PARTS = sizeof parts / sizeof parts[0] };

static const char *const call_names[CALLS] = {"write", "read"};

/* Over all parts. */
static unsigned long total[CALLS][ANSWERS];

/* Says how often each answer came in this part, and adds that to the total. */
static void count_up(void)
{
    for (int k = 0; k < CALLS * ANSWERS; k++) {
        unsigned long times = answers[k / ANSWERS][k % ANSWERS];

        total[k / ANSWERS][k % ANSWERS] += times;
        if (times > 0 && !quiet)
            printf("; %s %d: %lu", call_names[k / ANSWERS], k % ANSWERS, times);
    }
    memset(answers, 0, sizeof answers);
}

/* An answer that a call can give and never gave would mean that no part draws anything for it. */
static int every_answer(void)
{
    for (int k = 0; k < CALLS * ANSWERS; k++) {
        enum call call = (enum call)(k / ANSWERS);
        uint32_t n = (uint32_t)(k % ANSWERS);

        if (can_answer(call, n) && spoilt(total[call][n], NEVER) == 0)
            return report_missing(NEVER, call_names[call], n, 0);
    }
    return 1;
}

static int a_longest_line(void)
{
    unsigned long times = spoilt(longest, NO_LONGEST);

    if (times == 0)
        return report_missing(NO_LONGEST, "bytes", VP1_LINE, times);
    if (!quiet)
        printf("the longest line, of %d bytes, was written %lu times\n", VP1_LINE, times);
    return 1;
}

static int everything(uint64_t seed)
{
    memset(answers, 0, sizeof answers);
    memset(total, 0, sizeof total);
    longest = found = 0;
    for (int i = 0; i < PARTS; i++) {
        begin_part(parts[i].name, i, seed);
        if (!parts[i].run())
            return 0;
        if (!quiet)
            printf("%s: %lu %s", parts[i].name, at.number, parts[i].what);
        count_up();
        if (!quiet)
            printf("\n");
        fflush(stdout);
    }
    return every_answer() && a_longest_line();
}

/* Every slip must be reported as what it is; and without one there must be nothing to report, or a report would say little. */
static int all_slips(uint64_t seed)
{
    brief = quiet = 1;
    for (int n = NO_SLIP; n <= slip_count; n++) {
        int clean;

        make_slip(n);
        clean = everything(seed);
        if (n == NO_SLIP ? !clean : clean || !(found & BIT(slip_shows(n)))) {
            printf("names: slip %d (%s): %s", n, n == NO_SLIP ? "none" : slip_name(n), clean ? "not reported" : "");
            print_found();
            return 0;
        }
        if (n != NO_SLIP) {
            printf("slip %d, %s: found in %s, case %lu: ", n, slip_name(n), at.part, at.number);
            print_found();
        }
    }
    return 1;
}

int main(void)
{
    const char *seed_text = getenv("SEED"), *slip_text = getenv("SLIP");
    uint64_t seed = seed_text ? strtoull(seed_text, NULL, 16) : 0x9e3779b97f4a7c15;
    int well, n = slip_text ? atoi(slip_text) : NO_SLIP;

    set_pattern();
    if (slip_text && strcmp(slip_text, "all") == 0) {
        well = all_slips(seed);
    } else if (slip_text && (n < FIRST_SLIP || n > slip_count)) {
        fprintf(stderr, "names: SLIP is all, or a number from %d to %d\n", FIRST_SLIP, slip_count);
        return 2;
    } else {
        make_slip(n);
        well = everything(seed);
    }
    return fflush(stdout) == 0 && !ferror(stdout) && well ? EXIT_SUCCESS : EXIT_FAILURE;
}
