/* The functions over struct vp1_state against the plain calls: from the same states and inputs they must leave the same answers, counts and
   bytes. Good C and good C++. With ORDER_FIRST the headers are included the other way round. A line is written and read too, so that all three
   libraries are in one program.
   Prints nothing and exits 0 when all is well; else says which function differed first and exits 1. */
#ifdef ORDER_FIRST
#include "vp1_names.h"
#include "vp1_order.h"
#include "vp1.h"
#else
#include "vp1.h"
#include "vp1_order.h"
#include "vp1_names.h"
#endif

#include <assert.h>
#include <stdio.h>
#include <stdlib.h>
#include <string.h>

/* The lengths are the header's, written out once more; and there is no gap, so that states can be compared as bytes. */
#define LENT(p) (p).ds, 8192, (p).a, 32, (p).r, 32, (p).c, 4, (p).vc, 4, (p).v, 512
static_assert(sizeof(struct vp1_state) == 8192 + 4 * (32 + 32 + 4 + 4) + 512, "the six pieces and nothing else");
static_assert(sizeof(struct vp1_parts) == 4 * 16, "sixteen words and nothing else");

/* Each function's name; the answers that it can give and those that it gave, the answer n as bit n. Over a state none can give 5 (a part would
   give it again if it was kept: no run here has it). */
enum function { STEP, RUN, PLACES, MAY_SWAP, PART, END, FUNCTIONS };
static struct {
    const char *name;
    unsigned can, gave;
} functions[FUNCTIONS] = {
    {"vp1_state_step", 0x1f, 0}, {"vp1_state_run", 0xdf, 0}, {"vp1_state_places", 0x1f, 0}, {"vp1_state_may_swap", 0x1f, 0},
    {"vp1_state_part", 0x9f, 0}, {"vp1_parts_end", 0xdf, 0}};

static struct vp1_state s, t; /* the functions change s, the plain calls t */
static uint64_t seed = 0x13198a2e03707344;

static uint32_t draw(void)
{
    seed ^= seed << 13;
    seed ^= seed >> 7;
    seed ^= seed << 17;
    return (uint32_t)(seed >> 32);
}

static void fill(void)
{
    uint8_t *bytes = (uint8_t *)&s;
    for (size_t i = 0; i < sizeof s; i++)
        bytes[i] = (uint8_t)draw();
    t = s;
}

/* A triple: mostly an opcode of the two units, mostly good side inputs. */
static void triple(uint32_t *w)
{
    w[0] = draw() % 16 == 0 ? draw() : (0x80 + draw() % 0x60) << 24 | (draw() & 0xffffff);
    w[1] = draw() % 8 == 0 ? draw() : draw() % 32;
    w[2] = draw() % 8 == 0 ? draw() : draw() % 0x20000;
}

/* Ends the program unless the function and the call agree on all that they hand back, and on the states; and unless the answer is one that the
   function can give. */
static void agree(enum function f, int same, uint32_t answer)
{
    int can = answer < 8 && (functions[f].can >> answer & 1) == 1;
    if (can && same && memcmp(&s, &t, sizeof s) == 0) {
        functions[f].gave |= 1u << answer;
        return;
    }
    printf("%s %s, answer %u\n", functions[f].name, can ? "differs from the call" : "cannot answer so", (unsigned)answer);
    exit(EXIT_FAILURE);
}

/* What is written always holds something else before. */
static void step(void)
{
    uint32_t w[3];
    struct vp1_counts k = {draw(), draw()};
    uint64_t cells = draw(), clipped = draw();
    triple(w);
    uint32_t x = vp1_state_step(&s, w[0], w[1], w[2], &k);
    uint32_t y = vp1_step(w[0], w[1], w[2], LENT(t), &cells, &clipped);
    agree(STEP, x == y && k.accesses == cells && k.clipped == clipped, x);
}

/* A list, mostly of documented opcodes, so that some get far: vmin to vsub, and what stands beside them. */
static void triples(uint32_t *words, size_t n)
{
    for (size_t i = 0; i < n; i++) {
        triple(words + 3 * i);
        if (draw() % 8 != 0)
            words[3 * i] = (0x88 + draw() % 4 * 16 + draw() % 6) << 24 | (words[3 * i] & 0xffffff);
    }
}

static void run(void)
{
    static uint32_t words[3 * 16 + 2];
    size_t n = draw() % 17, length = 3 * n + (draw() % 16 == 0 ? 1 + draw() % 2 : 0);
    uint32_t budget = draw() % 24, steps = draw(), done = draw();
    struct vp1_counts k = {draw(), draw()};
    uint64_t cells = draw(), clipped = draw();
    triples(words, n);
    uint32_t x = vp1_state_run(&s, words, length, budget, &steps, &k);
    uint32_t y = vp1_run(words, length, budget, LENT(t), &done, &cells, &clipped);
    agree(RUN, x == y && steps == done && k.accesses == cells && k.clipped == clipped, x);
}

/* One part of a run, on the function's words and on the call's. */
static void one_part(const uint8_t *bytes, size_t n, struct vp1_parts *run, uint32_t *words)
{
    uint32_t steps = draw(), done = draw();
    struct vp1_counts k = {draw(), draw()};
    uint64_t cells = draw(), clipped = draw();
    uint32_t x = vp1_state_part(&s, run, bytes, n, &steps, &k);
    uint32_t y = vp1_part(bytes, n, LENT(t), words, 16, &done, &cells, &clipped);
    agree(PART, x == y && steps == done && k.accesses == cells && k.clipped == clipped && memcmp(run->words, words, 4 * 16) == 0, x);
}

/* The end of both. */
static void one_end(struct vp1_parts *run, uint32_t *words)
{
    uint32_t steps = draw(), done = draw();
    struct vp1_counts k = {draw(), draw()};
    uint64_t cells = draw(), clipped = draw();
    uint32_t x = vp1_parts_end(run, &steps, &k);
    uint32_t y = vp1_end(words, 16, &done, &cells, &clipped);
    agree(END, x == y && steps == done && k.accesses == cells && k.clipped == clipped && memcmp(run->words, words, 4 * 16) == 0, x);
}

/* A list in three parts, and its end; now and then a byte is missing. */
static void parts(void)
{
    static uint32_t words[3 * 16];
    static uint8_t bytes[4 * 3 * 16];
    struct vp1_parts run;
    uint32_t kept[16];
    size_t n = draw() % 17, all = 12 * n, first = draw() % (all + 1), second = draw() % (all - first + 1);
    uint32_t budget = draw() % 24;
    triples(words, n);
    for (size_t i = 0; i < all; i++)
        bytes[i] = (uint8_t)(words[i / 4] >> 8 * (i % 4));
    vp1_parts_begin(&run, budget);
    vp1_begin(budget, kept, 16);
    one_part(bytes, first, &run, kept);
    one_part(bytes + first, second, &run, kept);
    all -= draw() % 4 == 0 && first + second < all;
    one_part(bytes + first + second, all - first - second, &run, kept);
    one_end(&run, kept);
}

static void places(void)
{
    uint32_t w[3], b[VP1_PLACES], d[22];
    uint32_t reads = draw(), writes = draw(), rs = draw(), ws = draw();
    triple(w);
    for (size_t i = 0; i < 22; i++)
        b[i] = d[i] = draw();
    uint32_t x = vp1_state_places(&s, w[0], w[1], w[2], b, &reads, &writes);
    uint32_t y = vp1_places(w[0], w[1], w[2], LENT(t), d, 22, &rs, &ws);
    agree(PLACES, x == y && reads == rs && writes == ws && memcmp(b, d, sizeof d) == 0, x);
}

static void may_swap(void)
{
    uint32_t w[6], clash = draw(), place = draw(), writer = draw(), k = draw(), m = draw(), n = draw();
    triple(w);
    triple(w + 3);
    uint32_t x = vp1_state_may_swap(&s, w[0], w[1], w[2], w[3], w[4], w[5], &clash, &place, &writer);
    uint32_t y = vp1_may_swap(w[0], w[1], w[2], w[3], w[4], w[5], LENT(t), &k, &m, &n);
    agree(MAY_SWAP, x == y && clash == k && place == m && writer == n, x);
}

static void hold(int fact, const char *name)
{
    if (fact)
        return;
    printf("it does not hold: %s\n", name);
    exit(EXIT_FAILURE);
}

static int counts(struct vp1_counts k, uint64_t accesses, uint64_t clipped) { return k.accesses == accesses && k.clipped == clipped; }

/* By hand, since two that agree may both be wrong: a load, a wrong word, a list that outlasts its budget. */
static void by_hand(void)
{
    const uint32_t list[9] = {0xcc001234, 0, 0, 0xcd000000, 0, 0, 0xd9080007, 0, 0};
    struct vp1_counts k = {99, 99};
    uint32_t steps = 99;
    memset(&s, 0, sizeof s);
    t = s;
    hold(vp1_state_step(&s, 0x7f000000, 0, 0, &k) == VP1_FOREIGN && counts(k, 0, 0), "a wrong word is refused");
    hold(memcmp(&s, &t, sizeof s) == 0, "a refusal changes nothing");
    hold(vp1_state_run(&s, list, 9, 2, &steps, &k) == VP1_SPENT && steps == 2 && counts(k, 0, 0), "two steps of three");
    t.a[0] = 0x1234;
    hold(memcmp(&s, &t, sizeof s) == 0, "setlo writes $a0 alone");
    hold(vp1_state_run(&s, list, 9, 3, &steps, &k) == VP1_DONE && steps == 3 && counts(k, 8, 0), "a column under code 0 enters 8 cells");
    hold(vp1_state_run(&s, list, 8, 3, &steps, &k) == VP1_RAGGED && steps == 0 && counts(k, 0, 0), "a ragged list");
}

/* The same load in parts: a part answers 0 until its triple is whole and refused, and the end tells what is kept. */
static void parts_by_hand(void)
{
    const uint8_t load[12] = {0x07, 0x00, 0x08, 0xd9}, wrong[12] = {0, 0, 0, 0x7f};
    struct vp1_counts k = {99, 99};
    struct vp1_parts run;
    uint32_t steps = 99;
    memset(&s, 0, sizeof s);
    hold(vp1_parts_begin(&run, 9) == VP1_DONE, "a run is begun");
    hold(vp1_state_part(&s, &run, load, 11, &steps, &k) == VP1_DONE && steps == 0 && counts(k, 0, 0), "eleven bytes are no triple");
    hold(vp1_state_part(&s, &run, load + 11, 1, &steps, &k) == VP1_DONE && steps == 1 && counts(k, 8, 0), "the twelfth makes one");
    hold(vp1_state_part(&s, &run, wrong, 12, &steps, &k) == VP1_FOREIGN && steps == 1 && counts(k, 8, 0), "a wrong word in a part");
    hold(vp1_state_part(&s, &run, load, 12, &steps, &k) == VP1_FOREIGN && steps == 1 && counts(k, 8, 0), "its answer is kept");
    hold(vp1_parts_end(&run, &steps, &k) == VP1_FOREIGN && steps == 1 && counts(k, 8, 0), "the end tells it");
}

/* Document 02's sum: vadd s $v2 $v1 $v1 of 0x64 clips all 16 components. By itself; then as a list, twice, with ldvv $v3 $a0 0x0 between; then the same
   list in two parts. */
static void clipped_by_hand(void)
{
    const uint32_t sum = 0x8c104207, list[9] = {sum, 0, 0, 0xd9180007, 0, 0, sum, 0, 0};
    uint8_t bytes[36];
    struct vp1_counts k = {99, 99};
    struct vp1_parts run;
    uint32_t steps = 99;
    for (int i = 0; i < 36; i++)
        bytes[i] = (uint8_t)(list[i / 4] >> 8 * (i % 4));
    memset(&s, 0, sizeof s);
    memset(s.v + 16, 0x64, 16);
    hold(vp1_state_step(&s, sum, 0, 0, &k) == VP1_DONE && counts(k, 0, 16) && s.v[32] == 0x7f, "a sum of 200 in 16 components");
    hold(vp1_state_run(&s, list, 9, 9, &steps, &k) == VP1_DONE && steps == 3 && counts(k, 8, 32), "two such sums in a list");
    vp1_parts_begin(&run, 9);
    hold(vp1_state_part(&s, &run, bytes, 20, &steps, &k) == VP1_DONE && steps == 1 && counts(k, 0, 16), "the first one in a part");
    hold(vp1_state_part(&s, &run, bytes + 20, 16, &steps, &k) == VP1_DONE && steps == 3 && counts(k, 8, 32), "and both");
    hold(vp1_parts_end(&run, &steps, &k) == VP1_DONE && steps == 3 && counts(k, 8, 32), "the end tells both");
}

/* The line of a word, there and back. */
static void line_by_hand(void)
{
    const uint8_t expected[] = "setlo $a3 0x1234\n";
    uint8_t line[VP1_LINE];
    uint32_t length = 99, word = 99;
    hold(vp1_write_line(0xcc181234, line, VP1_LINE, &length) == VP1_DONE && length == 17, "a line of 17 bytes");
    hold(memcmp(line, expected, 17) == 0, "the line of 0xcc181234");
    hold(vp1_read_line(line, length, &word) == VP1_DONE && word == 0xcc181234, "the word of that line");
    hold(vp1_write_line(0xcc181234, line, 16, &length) == VP1_SHORT && length == 0, "an output that is too short");
    hold(vp1_read_line(line, 16, &word) == VP1_UNENDED && word == 0, "a line without its feed");
}

int main(void)
{
    for (int turn = 0; turn < 8000; turn++) {
        if (turn % 64 == 0)
            fill();
        step();
        run();
        parts();
        places();
        may_swap();
    }
    for (int f = 0; f < FUNCTIONS; f++)
        if (functions[f].gave != functions[f].can) {
            printf("%s can answer as the bits of %x say, and only gave %x\n", functions[f].name, functions[f].can, functions[f].gave);
            return EXIT_FAILURE;
        }
    by_hand();
    parts_by_hand();
    clipped_by_hand();
    line_by_hand();
    return EXIT_SUCCESS;
}
