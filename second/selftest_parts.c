/* selftest_parts.c - checks lists in parts against what document 02's wish 3 and
 * docs/PARTS.md say, sentence by sentence, on one short list worked out by hand. */
#include "selftest.h"

#include "vp1_second.h"

#include <stdio.h>
#include <string.h>

static struct pieces {
    uint8_t ds[SECOND_DS], v[SECOND_V];
    uint32_t a[SECOND_A], r[SECOND_R], c[SECOND_C], vc[SECOND_VC];
} p;
static uint32_t run[2 * SECOND_PARTS], steps;
static uint64_t accesses, clipped;
static int failures;

#define CHECK(cond) check((cond), #cond, __LINE__)

static void check(int ok, const char *text, int line)
{
    if (ok)
        return;
    if (failures++ < 10)
        fprintf(stderr, "selftest_parts: line %d: %s\n", line, text);
}

/* vsub u $vc0 $v3 $v0 0x1; ldvv $v1 $a0 0x0; ldvh $v2 $a0 0x0. From a state of zeros the
 * difference is -1 in all sixteen components, which are clipped and set all flags of $vc0;
 * the column enters 8 cells, the row 16. */
static const uint8_t list[36] = {
    0x08, 0x00, 0x18, 0xbd, 0, 0, 0, 0, 0, 0, 0, 0,
    0x07, 0x00, 0x08, 0xd9, 0, 0, 0, 0, 0, 0, 0, 0,
    0x07, 0x00, 0x10, 0xd8, 0, 0, 0, 0, 0, 0, 0, 0,
};

/* A triple for each refusal of a step: opcode 0x7f; 0xc3; aadd, side index 0x100; vcmpad,
 * mask word 0x20000. High byte first, the last two would be other numbers. */
static const uint8_t refused[4][12] = {
    { 0, 0, 0, 0x7f, 0, 0, 0, 0, 0, 0, 0, 0 },
    { 0, 0, 0, 0xc3, 0, 0, 0, 0, 0, 0, 0, 0 },
    { 0, 0, 0, 0xca, 0, 1, 0, 0, 0, 0, 0, 0 },
    { 0, 0, 0, 0x8f, 0, 0, 0, 0, 0, 0, 2, 0 },
};

static void begin(uint32_t budget)
{
    memset(&p, 0, sizeof p);
    memset(run, 0xee, sizeof run);
    CHECK(second_begin(budget, run, SECOND_PARTS) == 0);
    CHECK(run[0] == budget);
    for (int i = 1; i < SECOND_PARTS; i++)
        CHECK(run[i] == 0);
    CHECK(run[SECOND_PARTS] == 0xeeeeeeee);
}

static uint32_t part_of(const uint8_t *bytes, size_t n, const size_t m[6], size_t nrun)
{
    steps = 99;
    accesses = clipped = 99;
    return second_part(bytes, n, p.ds, m[0], p.a, m[1], p.r, m[2], p.c, m[3], p.vc, m[4],
                       p.v, m[5], run, nrun, &steps, &accesses, &clipped);
}

static const size_t right[6] = { SECOND_DS, SECOND_A, SECOND_R, SECOND_C, SECOND_VC, SECOND_V };

static uint32_t part(const uint8_t *bytes, size_t n)
{
    return part_of(bytes, n, right, SECOND_PARTS);
}

/* A part with one piece (the i-th) too short or too long. */
static uint32_t wrong_part(int i, int by, const uint8_t *bytes, size_t n)
{
    size_t m[6];

    memcpy(m, right, sizeof m);
    m[i] += (size_t)by;
    return part_of(bytes, n, m, SECOND_PARTS);
}

static uint32_t end(void)
{
    steps = 99;
    accesses = clipped = 99;
    return second_end(run, SECOND_PARTS, &steps, &accesses, &clipped);
}

static int counts(uint32_t s, uint64_t c, uint64_t k)
{
    return steps == s && accesses == c && clipped == k;
}

/* Nothing more happens: whatever comes gives this answer and these counts. */
static void over(uint32_t answer, uint32_t s, uint64_t c, uint64_t k, int line)
{
    struct pieces was = p;
    uint32_t words[SECOND_PARTS];

    memcpy(words, run, sizeof words);
    check(run[1] == 1 && run[2] == answer, "the answer is kept", line);
    check(part(list, 36) == answer && counts(s, c, k), "a part gives it", line);
    check(part(list, 0) == answer && counts(s, c, k), "an empty part", line);
    check(wrong_part(0, -1, list, 36) == answer && counts(s, c, k), "it comes before 5", line);
    check(end() == answer && counts(s, c, k), "the end gives it", line);
    check(end() == answer && counts(s, c, k), "so does another", line);
    check(part(refused[0], 12) == answer && counts(s, c, k), "and a part after it", line);
    check(memcmp(&was, &p, sizeof p) == 0, "the pieces stay", line);
    check(memcmp(words, run, sizeof words) == 0, "the words stay", line);
}

#define OVER(answer, steps, accesses, clipped) \
    over((answer), (steps), (accesses), (clipped), __LINE__)

/* The whole list, however it is cut. */
static void all_done(void)
{
    CHECK(end() == 0 && counts(3, 24, 16));
    CHECK(p.vc[0] == 0xffffffff);
    OVER(0, 3, 24, 16);
}

static void every_cut(void)
{
    for (size_t i = 0; i <= 36; i++)
        for (size_t j = i; j <= 36; j++) {
            begin(3);
            CHECK(part(list, i) == 0 && steps == i / 12);
            CHECK(part(list + i, 0) == 0 && steps == i / 12);
            CHECK(part(list + i, j - i) == 0 && steps == j / 12);
            CHECK(part(list + j, 36 - j) == 0 && counts(3, 24, 16));
            all_done();
        }
    begin(0xffffffff);
    for (size_t i = 0; i < 36; i++)
        CHECK(part(list + i, 1) == 0 && steps == (i + 1) / 12);
    all_done();
    begin(0);
    CHECK(end() == 0 && counts(0, 0, 0));
    OVER(0, 0, 0, 0);
}

/* A triple is taken up at its twelfth byte, and not before. */
static void the_twelfth_byte(void)
{
    begin(5);
    CHECK(part(list, 3) == 0 && counts(0, 0, 0));
    CHECK(run[6] == 3 && run[7] == 0x180008 && run[8] == 0 && run[9] == 0);
    CHECK(part(list + 3, 8) == 0 && counts(0, 0, 0) && p.vc[0] == 0);
    CHECK(run[6] == 11 && run[7] == 0xbd180008 && run[8] == 0 && run[9] == 0);
    CHECK(part(list + 11, 1) == 0 && counts(1, 0, 16) && p.vc[0] == 0xffffffff);
    for (int i = 4; i < SECOND_PARTS; i++)
        CHECK(run[i] == (i == 10 ? 16 : 0));
    CHECK(part(list + 12, 12) == 0 && counts(2, 8, 16));
    CHECK(run[0] == 5 && run[1] == 0 && run[2] == 0 && run[3] == 2 && run[4] == 8 && run[5] == 0);
    CHECK(run[10] == 16 && run[11] == 0);
}

/* Each byte in its place: the words hold them low byte first, and 0 behind. */
static void bytes_left_over(void)
{
    static const uint8_t eleven[11] = { 1, 2, 3, 4, 5, 6, 7, 8, 9, 10, 11 };
    static const uint32_t words[3] = { 0x04030201, 0x08070605, 0x000b0a09 };

    for (uint32_t n = 0; n <= 11; n++) {
        begin(1);
        CHECK(part(eleven, n) == 0 && run[6] == n);
        for (uint32_t i = 0; i < 12; i++)
            CHECK((run[7 + i / 4] >> 8 * (i % 4) & 0xff) ==
                  (i < n ? words[i / 4] >> 8 * (i % 4) & 0xff : 0));
    }
}

/* 6 comes only at the end, and the steps done stand. */
static void ragged_ends(void)
{
    for (size_t n = 0; n < 36; n++) {
        uint32_t whole = (uint32_t)n / 12, cells = whole == 2 ? 8 : 0, out = whole > 0 ? 16 : 0;

        begin(99);
        CHECK(part(list, n) == 0);
        CHECK(end() == (n % 12 == 0 ? 0u : 6u) && counts(whole, cells, out));
        CHECK(p.vc[0] == (whole > 0 ? 0xffffffff : 0));
        CHECK(run[6] == n % 12);
        OVER(n % 12 == 0 ? 0 : 6, whole, cells, out);
    }
}

/* A refused triple counts in nothing; bytes after it are not looked at. */
static void refusals(void)
{
    for (uint32_t k = 0; k < 4; k++) {
        uint8_t bytes[12 + 12 + 5];

        memcpy(bytes, list, 12);
        memcpy(bytes + 12, refused[k], 12);
        memcpy(bytes + 24, list, 5);
        begin(99);
        CHECK(part(bytes, sizeof bytes) == k + 1 && counts(1, 0, 16));
        CHECK(run[6] == 0 && run[7] == 0);
        OVER(k + 1, 1, 0, 16);
        begin(99);
        CHECK(part(bytes, 23) == 0 && counts(1, 0, 16));
        CHECK(part(bytes + 23, 1) == k + 1 && counts(1, 0, 16));
        OVER(k + 1, 1, 0, 16);
    }
}

/* Before a triple the budget is looked at, and before what the triple is. */
static void budgets(void)
{
    begin(0);
    CHECK(part(list, 11) == 0 && counts(0, 0, 0));
    CHECK(part(list + 11, 1) == 7 && counts(0, 0, 0) && p.vc[0] == 0);
    OVER(7, 0, 0, 0);
    begin(0);
    CHECK(part(refused[0], 12) == 7 && counts(0, 0, 0));
    OVER(7, 0, 0, 0);
    begin(2);
    CHECK(part(list, 12) == 0 && part(list + 12, 12) == 0 && counts(2, 8, 16));
    CHECK(part(list + 24, 11) == 0 && counts(2, 8, 16));
    CHECK(part(list + 35, 1) == 7 && counts(2, 8, 16));
    OVER(7, 2, 8, 16);
    begin(2);
    CHECK(part(list, 36) == 7 && counts(2, 8, 16));
    OVER(7, 2, 8, 16);
    begin(2); /* spent, but nothing comes, or nothing whole */
    CHECK(part(list, 24) == 0 && end() == 0 && counts(2, 8, 16));
    OVER(0, 2, 8, 16);
    begin(2);
    CHECK(part(list, 25) == 0 && end() == 6 && counts(2, 8, 16));
    OVER(6, 2, 8, 16);
}

/* A wrong length is kept as 5: the counts so far stand, and the bytes left over. */
static void lengths(void)
{
    for (int k = 0; k < 12; k++) {
        int by = k % 2 == 0 ? -1 : 1;

        begin(9);
        CHECK(wrong_part(k / 2, by, list, 36) == 5 && counts(0, 0, 0) && p.vc[0] == 0);
        OVER(5, 0, 0, 0);
        begin(9);
        CHECK(part(list, 26) == 0 && counts(2, 8, 16));
        CHECK(wrong_part(k / 2, by, list + 26, 10) == 5 && counts(2, 8, 16));
        CHECK(run[6] == 2 && run[7] == 0x0007);
        OVER(5, 2, 8, 16);
        begin(9); /* also a part that brings nothing */
        CHECK(part(list, 12) == 0 && wrong_part(k / 2, by, list, 0) == 5 && counts(1, 0, 16));
        OVER(5, 1, 0, 16);
        begin(0); /* before the budget, and before the word */
        CHECK(wrong_part(k / 2, by, refused[0], 12) == 5 && counts(0, 0, 0));
        OVER(5, 0, 0, 0);
    }
    begin(9);
    CHECK(part(list, 36) == 0);
    all_done();
}

/* Words of another number: 5, and nothing is changed or kept. */
static void other_numbers_of_words(void)
{
    static const size_t numbers[] = { 0, 1, 15, 17, 32 };
    uint32_t was[2 * SECOND_PARTS];

    for (size_t i = 0; i < sizeof numbers / sizeof numbers[0]; i++) {
        begin(9);
        CHECK(part(list, 14) == 0);
        memcpy(was, run, sizeof was);
        CHECK(second_begin(1, run, numbers[i]) == 5);
        CHECK(part_of(list + 14, 22, right, numbers[i]) == 5 && counts(0, 0, 0));
        steps = 99;
        accesses = clipped = 99;
        CHECK(second_end(run, numbers[i], &steps, &accesses, &clipped) == 5 && counts(0, 0, 0));
        CHECK(memcmp(was, run, sizeof was) == 0);
        CHECK(part(list + 14, 22) == 0 && counts(3, 24, 16));
        all_done();
        CHECK(part_of(list, 12, right, numbers[i]) == 5 && counts(0, 0, 0)); /* before a kept answer */
    }
}

/* Sixteen words: these, then 0. */
static void words_are(const uint32_t w[12])
{
    memset(&p, 0, sizeof p);
    memset(run, 0, sizeof run);
    memcpy(run, w, 12 * sizeof w[0]);
}

#define WORDS(...) words_are((const uint32_t[12]){ __VA_ARGS__ })

/* What the words in `run` are taken for: this answer, kept; and these words after a call. */
static void taken_for(const uint32_t w[12], int line)
{
    uint32_t given[SECOND_PARTS];

    memcpy(given, run, sizeof given);
    for (int way = 0; way < 2; way++) {
        memcpy(run, given, sizeof given);
        check((way ? end() : part(list, 36)) == w[2], "the answer", line);
        check(counts(w[3], w[4] | (uint64_t)w[5] << 32, w[10] | (uint64_t)w[11] << 32),
              "the counts", line);
        check(memcmp(run, w, 12 * sizeof w[0]) == 0, "the words", line);
        for (int i = 12; i < SECOND_PARTS; i++)
            check(run[i] == 0, "the last words", line);
    }
    check(p.vc[0] == 0, "the pieces", line);
}

#define TAKEN_FOR(...) taken_for((const uint32_t[12]){ __VA_ARGS__ }, __LINE__)

/* Words out of the bounds of every run. */
static void impossible_words(void)
{
    WORDS(9, 0, 0, 10, 0, 0, 0); /* more steps than the budget */
    TAKEN_FOR(0, 1, 5);
    WORDS(9, 1, 7, 10, 0, 0, 3, 0xffffff);
    TAKEN_FOR(0, 1, 5);
    WORDS(9, 0, 0, 2, 33, 0, 0); /* more accesses than sixteen for each step */
    TAKEN_FOR(0, 1, 5);
    WORDS(9, 0, 0, 2, 0, 1, 0);
    TAKEN_FOR(0, 1, 5);
    WORDS(9, 0, 0, 2, 32, 0, 0, 0, 0, 0, 33, 0); /* more clipped components than that */
    TAKEN_FOR(0, 1, 5);
    WORDS(9, 1, 7, 2, 0, 0, 0, 0, 0, 0, 0, 1);
    TAKEN_FOR(0, 1, 5);
    WORDS(9, 0, 0, 0, 0, 0, 0, 0, 0, 0, 1, 0);
    TAKEN_FOR(0, 1, 5);
    WORDS(9, 0, 0, 2, 32, 0, 12, 1, 2, 3); /* more than eleven bytes left over */
    TAKEN_FOR(0, 1, 5);
    WORDS(9, 1, 0, 2, 32, 0, 0x80000000);
    TAKEN_FOR(0, 1, 5);
    WORDS(9, 1, 8, 1, 0, 0, 0); /* an answer that no run ends with is kept */
    TAKEN_FOR(0, 1, 5);
    WORDS(9, 2, 11, 1, 0, 0, 0);
    TAKEN_FOR(0, 1, 5);
    WORDS(9, 0x80000000, 12, 9, 144, 0, 11, 1, 2, 3);
    TAKEN_FOR(0, 1, 5);
    WORDS(9, 1, 0x10005, 1, 0, 0, 0);
    TAKEN_FOR(0, 1, 5);
}

/* Words within the bounds, but for what is not looked at; and words of 0, which are a new run with budget 0. */
static void odd_words(void)
{
    WORDS(0, 0, 0, 0, 0, 0, 0);
    CHECK(part(list, 11) == 0 && part(list + 11, 1) == 7 && counts(0, 0, 0) && p.vc[0] == 0);
    WORDS(0, 0, 0, 0, 0, 0, 0);
    CHECK(end() == 0 && counts(0, 0, 0) && run[1] == 1);
    WORDS(9, 2, 3, 2, 32, 0, 1, 0xffffff55, 7, 7);
    run[12] = run[15] = 1;
    TAKEN_FOR(9, 1, 3, 2, 32, 0, 1, 0x55);
    WORDS(9, 0x80000000, 7, 9, 144, 0, 11, 1, 2, 0xff000003, 144);
    TAKEN_FOR(9, 1, 7, 9, 144, 0, 11, 1, 2, 3, 144);
    WORDS(0xffffffff, 1, 5, 0xffffffff, 0xfffffff0, 15, 0);
    TAKEN_FOR(0xffffffff, 1, 5, 0xffffffff, 0xfffffff0, 15, 0);
    WORDS(0xffffffff, 1, 5, 0xffffffff, 0, 0, 0, 0, 0, 0, 0xfffffff0, 15);
    TAKEN_FOR(0xffffffff, 1, 5, 0xffffffff, 0, 0, 0, 0, 0, 0, 0xfffffff0, 15);
    WORDS(9, 1, 0, 2, 32, 0, 0, 0, 0, 0, 32, 0); /* both counts at their bound */
    TAKEN_FOR(9, 1, 0, 2, 32, 0, 0, 0, 0, 0, 32, 0);
    WORDS(9, 1, 0, 1, 0, 0, 0);
    TAKEN_FOR(9, 1, 0, 1, 0, 0, 0);
    WORDS(9, 0, 77, 1, 16, 0, 1, 0xabcdef08, 5, 6, 15); /* not over: its answer is not looked at */
    run[12] = 9;
    CHECK(part(list + 1, 11) == 0 && counts(2, 16, 31) && p.vc[0] == 0xffffffff);
    CHECK(run[1] == 0 && run[2] == 0 && run[6] == 0 && run[7] == 0 && run[8] == 0 && run[12] == 0);
}

/* A copy of the words is the same run at that point. */
static void copies(void)
{
    uint32_t copy[SECOND_PARTS];
    struct pieces was;

    begin(9);
    CHECK(part(list, 17) == 0);
    memcpy(copy, run, sizeof copy);
    was = p;
    CHECK(part(list + 17, 19) == 0);
    all_done();
    memcpy(run, copy, sizeof copy);
    p = was;
    CHECK(part(list + 17, 7) == 0 && part(list + 24, 12) == 0);
    all_done();
}

int selftest_parts(void)
{
    every_cut();
    the_twelfth_byte();
    bytes_left_over();
    ragged_ends();
    refusals();
    budgets();
    lengths();
    other_numbers_of_words();
    impossible_words();
    odd_words();
    copies();
    return failures;
}
