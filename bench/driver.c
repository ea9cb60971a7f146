/* One list, run by one engine: what bench/run and bench/check count the instructions of.
     driver ENGINE LIST STEPS BUDGET [SECONDS]
   ENGINE is ours, or theirs; a number: ours again, lent the same list as bytes, in parts of so many triples; or none, which runs nothing and costs
   all but the calls. LIST is an opcode (two hexadecimal digits), mix, kernel, or column0 to column3, by the stride code; the list
   has STEPS triples and is run with BUDGET, so that a run with budget 0 costs all but the steps. With a fifth word the run is repeated and its
   nanoseconds for each step are printed.
     driver opcodes
   prints the documented opcodes. */
#include "documented.h"
#include "vp1.h"
#include "vp1_second.h"

#include <stdio.h>
#include <stdlib.h>
#include <string.h>
#include <time.h>

static struct vp1_state s;
static uint64_t seed = 0x243f6a8885a308d3;

static uint32_t draw(void)
{
    seed ^= seed << 13;
    seed ^= seed >> 7;
    seed ^= seed << 17;
    return (uint32_t)(seed >> 32);
}

static void fill(void)
{
    uint8_t *bytes = (uint8_t *)&s;
    for (size_t i = 0; i < sizeof s; i++)
        bytes[i] = (uint8_t)draw();
}

/* Motion compensation of two rows and two columns: prediction in $v0 and $v1, residues in $v2 and $v3, the range in $v8 and $v9. */
static const uint32_t kernel[10] = {
    0xd0000087, /* ldavh $v0 $a0 0x10 */
    0xd108400f, /* ldavv $v1 $a1 0x1 */
    0xd0108087, /* ldavh $v2 $a2 0x10 */
    0xd0188087, /* ldavh $v3 $a2 0x10 */
    0x9f200430, /* vadd9 $vc0 $v4 $v0 $v2 $v3 */
    0x9f284431, /* vadd9 $vc1 $v5 $v1 $v2 $v3 */
    0xa4311092, /* vclip $vc2 $v6 $v4 $v8 $v9 */
    0xa4395093, /* vclip $vc3 $v7 $v5 $v8 $v9 */
    0xd4198080, /* stavh $v6 $c0 $a3 0x10 */
    0xd521c009, /* stavv $v7 $c1 $a4 0x1 */
};

/* The stride code of a list of columns, or -1. */
static int column(const char *list)
{
    return strlen(list) == 7 && strncmp(list, "column", 6) == 0 && list[6] >= '0' && list[6] <= '3' ? list[6] - '0' : -1;
}

/* The opcode of triple i of a list. */
static uint32_t opcode(const char *list, size_t i)
{
    if (strcmp(list, "mix") == 0)
        return documented[i % sizeof documented];
    if (column(list) >= 0)
        return i % 2 == 0 ? 0xd9 : 0xdd;
    return (uint32_t)strtoul(list, NULL, 16);
}

static void make(const char *list, uint32_t *words, size_t steps)
{
    for (size_t i = 0; i < steps; i++) {
        uint32_t *w = words + 3 * i;
        if (strcmp(list, "kernel") == 0)
            w[0] = kernel[i % 10];
        else
            w[0] = opcode(list, i) << 24 | (draw() & 0xffffff);
        w[1] = draw() % 32;
        w[2] = draw() % 0x20000;
    }
    for (int i = 0; i < VP1_A && column(list) >= 0; i++)
        s.a[i] = (s.a[i] & 0x3fffffff) | (uint32_t)column(list) << 30;
}

/* The list in parts of so many triples, of which its own are a multiple. On x86-64 words lie in memory as a list's bytes do: low byte first. */
static uint32_t once_in_parts(const uint32_t *words, size_t steps, uint32_t budget, size_t triples)
{
    uint32_t done;
    struct vp1_counts counts;
    struct vp1_parts run;
    vp1_parts_begin(&run, budget);
    for (size_t i = 0; i < steps; i += triples)
        vp1_state_part(&s, &run, (const uint8_t *)(words + 3 * i), 12 * triples, &done, &counts);
    return vp1_parts_end(&run, &done, &counts);
}

/* `triples` is the number that the engine is, or 0. */
static uint32_t once(const char *engine, size_t triples, const uint32_t *words, size_t steps, uint32_t budget)
{
    uint32_t done;
    struct vp1_counts counts;
    if (triples > 0)
        return once_in_parts(words, steps, budget, triples);
    if (strcmp(engine, "none") == 0)
        return budget < steps ? VP1_SPENT : VP1_DONE;
    if (strcmp(engine, "ours") == 0)
        return vp1_state_run(&s, words, 3 * steps, budget, &done, &counts);
    return second_run(words, 3 * steps, budget, s.ds, SECOND_DS, s.a, SECOND_A, s.r, SECOND_R, s.c, SECOND_C, s.vc, SECOND_VC,
                      s.v, SECOND_V, &done, &counts.accesses, &counts.clipped);
}

static void print_nanoseconds(const char *engine, size_t triples, const uint32_t *words, size_t steps, uint32_t budget)
{
    int turns = (int)(20000000 / (steps + 1)) + 1;
    struct timespec from, to;
    clock_gettime(CLOCK_MONOTONIC, &from);
    for (int i = 0; i < turns; i++)
        once(engine, triples, words, steps, budget);
    clock_gettime(CLOCK_MONOTONIC, &to);
    printf("%.1f\n", ((double)(to.tv_sec - from.tv_sec) * 1e9 + (double)(to.tv_nsec - from.tv_nsec)) / turns / (double)steps);
}

static void print_opcodes(void)
{
    for (size_t i = 0; i < sizeof documented; i++)
        printf("%02x\n", documented[i]);
}

int main(int argc, char **argv)
{
    if (argc == 2 && strcmp(argv[1], "opcodes") == 0) {
        print_opcodes();
        return 0;
    }
    if (argc < 5)
        return 2;
    size_t triples = strtoul(argv[1], NULL, 10), steps = strtoul(argv[3], NULL, 10);
    uint32_t budget = (uint32_t)strtoul(argv[4], NULL, 10);
    uint32_t *words = malloc(12 * steps + 12);
    if (words == NULL)
        return 2;
    fill();
    make(argv[2], words, steps);
    uint32_t answer = once(argv[1], triples, words, steps, budget);
    if (answer != (budget < steps ? VP1_SPENT : VP1_DONE)) /* every list is good: anything else is a mistake of this program's */
        return 1;
    if (argc > 5)
        print_nanoseconds(argv[1], triples, words, steps, budget);
    free(words);
    return 0;
}
