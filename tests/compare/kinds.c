/* kinds.c - the kinds of clashes, counted: by the first place that clashes, and by which triple writes it.
 *
 * Two kinds cannot occur, and are not asked for. The zeros of a $vc are never the first place: whoever names them names the signs, and before
 * them; so clashes at the signs are counted apart, those where the zeros clash too and those where they do not. Flags of $c are never read, so
 * a clash there is one of two writers, and found as one of the first. */
#include "kinds.h"

#include "report.h"
#include "slips.h"

#include <stdio.h>
#include <string.h>

enum kind { A_LOW, A_HIGH, R_WORD, V_REGISTER, LONG, SHORT, SIGNS_ALONE, SIGNS_AND_ZEROS, ZEROS_ALONE, BYTE, KINDS };

static const struct {
    const char *name;
    int first, second; /* whether it can occur with the first, with the second as the writer */
} kinds[KINDS] = {
    [A_LOW] = {"$a low", 1, 1},
    [A_HIGH] = {"$a high", 1, 1},
    [R_WORD] = {"$r", 1, 1},
    [V_REGISTER] = {"$v", 1, 1},
    [LONG] = {"long", 1, 0},
    [SHORT] = {"short", 1, 0},
    [SIGNS_ALONE] = {"signs alone", 1, 1},
    [SIGNS_AND_ZEROS] = {"signs and zeros", 1, 1},
    [ZEROS_ALONE] = {"zeros alone", 0, 0},
    [BYTE] = {"byte", 1, 1},
};

static unsigned long counted[KINDS][2];

static enum kind kind_of(uint32_t place, int zeros)
{
    if (place < 64)
        return place % 2 == 0 ? A_LOW : A_HIGH;
    if (place < 96)
        return R_WORD;
    if (place < 128)
        return V_REGISTER;
    if (place < 136)
        return place % 2 == 0 ? LONG : SHORT;
    if (place >= 144)
        return BYTE;
    if (place % 2 == 1)
        return ZEROS_ALONE;
    return zeros ? SIGNS_AND_ZEROS : SIGNS_ALONE;
}

void count_kind(uint32_t place, uint32_t writer, int zeros) { counted[kind_of(place, zeros)][writer - 1]++; }

void forget_kinds(void) { memset(counted, 0, sizeof counted); }

static int missing(int k, const char *whose)
{
    strcpy(differed, "a kind of clash");
    if (!quiet)
        printf("compare: no clash at %s, written by the %s\n", kinds[k].name, whose);
    return 0;
}

int print_kinds(void)
{
    if (slip_in_kinds())
        counted[SIGNS_ALONE][1] = 0;
    for (int k = 0; k < KINDS && !quiet; k++)
        if (kinds[k].first)
            printf("clashes at %s: %lu where the first writes, %lu where the second does\n", kinds[k].name, counted[k][0], counted[k][1]);
    for (int k = 0; k < KINDS; k++) {
        if (kinds[k].first && counted[k][0] == 0)
            return missing(k, "first");
        if (kinds[k].second && counted[k][1] == 0)
            return missing(k, "second");
    }
    return 1;
}
