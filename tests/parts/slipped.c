/* slipped.c - the second engine's calls, each with a slip: made of its good calls, by changing the words before and after them. What somebody
   could write who read the papers in haste. */
#include "slips.h"

/* ---- What the words hold ---- */

static int is_over(const struct side *s) { return s->run.w[1] != 0; }

static int has_wrong_length(const struct asked *q)
{
    for (int p = 0; p < PIECES; p++)
        if (q->n[p] != right[p])
            return 1;
    return 0;
}

/* The part brings the 5 of a run. */
static int brings_5(const struct asked *q, const struct side *s) { return q->call == PART && !is_over(s) && has_wrong_length(q); }

static void clear(struct side *s, int from, int to)
{
    for (int i = from; i <= to; i++)
        s->run.w[i] = 0;
}

static void clear_count(struct side *s, int at) { clear(s, at, at + 1); }

/* The steps too. */
static void clear_counts(struct side *s) { clear(s, 3, 3), clear_count(s, ACCESSES_AT), clear_count(s, CLIPPED_AT); }

/* Makes the run one that is over, and says so. */
static void stop(struct side *s, uint32_t answer)
{
    s->run.w[1] = 1;
    s->run.w[2] = s->said.answer = answer;
}

static void carry_on(struct side *s) { clear(s, 1, 2), s->said.answer = VP1_DONE; }

/* ---- Bytes ---- */

/* Feeds one byte in the place of the part's i-th. */
static void feed_byte(const struct asked *q, struct side *s, size_t i, uint8_t byte)
{
    uint8_t *at = s->page + GUARD + q->shift + i, was = *at;
    struct asked one = *q;

    one.count = 1;
    one.shift += i;
    *at = byte;
    of_second(&one, s);
    *at = was;
}

/* A part without bytes, so that something is said even where no byte was fed. */
static void feed_nothing(const struct asked *q, struct side *s)
{
    struct asked none = *q;

    none.count = 0;
    of_second(&none, s);
}

static void forgets_left_over(const struct asked *q, struct side *s)
{
    of_second(q, s);
    if (q->call == PART && !is_over(s))
        clear(s, 6, 9);
}

/* The twelfth byte is taken for 0, and passed over when it comes. */
static void at_the_eleventh(const struct asked *q, struct side *s)
{
    static int ahead;

    if (q->call == BEGIN)
        ahead = 0;
    for (size_t i = 0; q->call == PART && i < q->count; i++) {
        if (!ahead)
            feed_byte(q, s, i, q->bytes[i]);
        ahead = !ahead && s->run.w[6] == 11;
        if (ahead)
            feed_byte(q, s, i, 0);
    }
    if (q->call == PART)
        feed_nothing(q, s);
    else
        of_second(q, s);
}

static uint32_t turned(uint32_t w) { return w >> 24 | (w >> 8 & 0xff00) | (w << 8 & 0xff0000) | w << 24; }

static void high_byte_first(const struct asked *q, struct side *s)
{
    uint32_t *w = s->run.w;

    for (size_t i = 0; q->call == PART && i < q->count; i++) {
        uint8_t byte = q->bytes[i];

        if (w[6] == 11 && !is_over(s)) {
            uint32_t last = turned((w[9] & 0xffffff) | (uint32_t)byte << 24);

            w[7] = turned(w[7]);
            w[8] = turned(w[8]);
            w[9] = last;
            byte = (uint8_t)(last >> 24);
        }
        feed_byte(q, s, i, byte);
    }
    if (q->call == PART)
        feed_nothing(q, s);
    else
        of_second(q, s);
}

/* ---- What is kept ---- */

/* The words are not made anew by begin: of them, how many bytes are left over. */
static void begins_with_left_over(const struct asked *q, struct side *s)
{
    uint32_t left = s->run.w[6];

    of_second(q, s);
    if (q->call == BEGIN && q->words == VP1_PARTS)
        s->run.w[6] = left;
}

static void begins_without_budget(const struct asked *q, struct side *s)
{
    of_second(q, s);
    if (q->call == BEGIN && q->words == VP1_PARTS)
        s->run.w[0] = 0;
}

static void end_undoes(const struct asked *q, struct side *s)
{
    if (q->call == END)
        clear(s, 1, 2);
    of_second(q, s);
}

static void keeps_no_5(const struct asked *q, struct side *s)
{
    int brought = brings_5(q, s);

    of_second(q, s);
    if (brought)
        clear(s, 1, 2);
}

static void five_before_kept(const struct asked *q, struct side *s)
{
    int meets = q->call == PART && is_over(s) && has_wrong_length(q);

    of_second(q, s);
    if (meets)
        s->said.answer = VP1_LENGTHS;
}

static void five_without_counts(const struct asked *q, struct side *s)
{
    if (brings_5(q, s))
        clear_counts(s);
    of_second(q, s);
}

static void five_forgets_left_over(const struct asked *q, struct side *s)
{
    if (brings_5(q, s))
        clear(s, 6, 9);
    of_second(q, s);
}

static void empty_looks_at_nothing(const struct asked *q, struct side *s)
{
    struct asked good = *q;

    for (int p = 0; p < PIECES && q->count == 0; p++)
        good.n[p] = right[p];
    of_second(&good, s);
}

static void end_keeps_nothing(const struct asked *q, struct side *s)
{
    int was = is_over(s);

    of_second(q, s);
    if (q->call == END && !was)
        clear(s, 1, 2);
}

static void keeps_no_refusal(const struct asked *q, struct side *s)
{
    int was = is_over(s);

    of_second(q, s);
    if (q->call == PART && !was && is_over(s) && s->said.answer <= VP1_SIDE_MASK)
        clear(s, 1, 2);
}

/* ---- 6 ---- */

static void six_in_a_part(const struct asked *q, struct side *s)
{
    of_second(q, s);
    if (q->call == PART && !is_over(s) && s->run.w[6] != 0)
        stop(s, VP1_RAGGED);
}

static void never_6(const struct asked *q, struct side *s)
{
    if (q->call == END && !is_over(s))
        clear(s, 6, 9);
    of_second(q, s);
}

static void six_without_counts(const struct asked *q, struct side *s)
{
    if (q->call == END && !is_over(s) && s->run.w[6] != 0)
        clear_counts(s);
    of_second(q, s);
}

static void end_forgets_left_over(const struct asked *q, struct side *s)
{
    of_second(q, s);
    if (q->call == END)
        clear(s, 6, 9);
}

/* ---- The budget ---- */

/* A part whose steps are counted from 0, and then added. */
static void budget_anew(const struct asked *q, struct side *s)
{
    uint32_t *w = s->run.w, steps = w[3];
    uint64_t accesses = count_at(w, ACCESSES_AT), clipped = count_at(w, CLIPPED_AT);

    if (is_over(s))
        steps = 0, accesses = clipped = 0;
    else
        clear_counts(s);
    of_second(q, s);
    s->said.steps += steps;
    s->said.accesses += accesses;
    s->said.clipped += clipped;
    w[3] += steps;
    set_count(w, ACCESSES_AT, count_at(w, ACCESSES_AT) + accesses);
    set_count(w, CLIPPED_AT, count_at(w, CLIPPED_AT) + clipped);
}

static void budget_per_part(const struct asked *q, struct side *s)
{
    if (q->call == PART)
        budget_anew(q, s);
    else
        of_second(q, s);
}

static void budget_per_block(const struct asked *q, struct side *s)
{
    struct asked block = *q;

    if (q->call != PART) {
        of_second(q, s);
        return;
    }
    block.count = q->count < BLOCK_BYTES ? q->count : BLOCK_BYTES;
    of_second(&block, s);
    for (size_t from = block.count; from < q->count; from += block.count) {
        block.shift = q->shift + from;
        block.count = q->count - from < BLOCK_BYTES ? q->count - from : BLOCK_BYTES;
        budget_anew(&block, s);
    }
}

static int is_spent(const struct asked *q, const struct side *s) { return q->call == PART && !is_over(s) && s->run.w[3] == s->run.w[0]; }

static void spent_at_once(const struct asked *q, struct side *s)
{
    of_second(q, s);
    if (is_spent(q, s) && s->run.w[3] > 0)
        stop(s, VP1_SPENT);
}

static void spent_at_the_first_byte(const struct asked *q, struct side *s)
{
    of_second(q, s);
    if (is_spent(q, s) && s->run.w[6] > 0)
        stop(s, VP1_SPENT);
}

static void spent_at_the_end(const struct asked *q, struct side *s)
{
    int spent = q->call == END && !is_over(s) && s->run.w[3] == s->run.w[0] && s->run.w[6] > 0;

    of_second(q, s);
    if (spent)
        stop(s, VP1_SPENT);
}

/* ---- Refusals, and a block of triples at a time ---- */

static void refusal_counts(const struct asked *q, struct side *s)
{
    int was = is_over(s);

    of_second(q, s);
    if (q->call == PART && !was && is_over(s) && s->said.answer <= VP1_SIDE_MASK)
        s->run.w[3]++, s->said.steps++;
}

static void refusal_leaves_bytes(const struct asked *q, struct side *s)
{
    int was = is_over(s);

    of_second(q, s);
    if (q->call == PART && !was && is_over(s) && s->said.answer <= VP1_SIDE_MASK)
        s->run.w[6] = 11;
}

/* Byte by byte; if the run stops with this answer at this triple of the part, it goes on. */
static void passes_over(const struct asked *q, struct side *s, int spent, uint32_t triple)
{
    uint32_t steps = s->run.w[3];

    for (size_t i = 0; i < q->count; i++) {
        int was = is_over(s);

        feed_byte(q, s, i, q->bytes[i]);
        if (!was && is_over(s) && (s->said.answer == VP1_SPENT) == spent && s->said.steps - steps == triple)
            carry_on(s);
    }
    feed_nothing(q, s);
}

/* The last of the first buffer, */
static void passes_over_the_129th(const struct asked *q, struct side *s)
{
    if (q->call == PART && !has_wrong_length(q))
        passes_over(q, s, 0, BLOCK);
    else
        of_second(q, s);
}

/* and the first of the second. */
static void is_not_spent_after_129(const struct asked *q, struct side *s)
{
    if (q->call == PART && !has_wrong_length(q))
        passes_over(q, s, 1, BLOCK + 1);
    else
        of_second(q, s);
}

/* ---- Any words ---- */

static void takes_other_numbers(const struct asked *q, struct side *s)
{
    struct asked good = *q;

    if (q->words > VP1_PARTS)
        good.words = VP1_PARTS;
    of_second(&good, s);
}

static void keeps_last_words(const struct asked *q, struct side *s)
{
    uint32_t last = s->run.w[VP1_PARTS - 1];

    of_second(q, s);
    if (q->call != BEGIN && q->words == VP1_PARTS)
        s->run.w[VP1_PARTS - 1] = last;
}

static void keeps_bytes_behind(const struct asked *q, struct side *s)
{
    uint32_t behind = s->run.w[6] < 12 ? s->run.w[9] & 0xff000000 : 0;

    of_second(q, s);
    if (q->call == END && q->words == VP1_PARTS)
        s->run.w[9] |= behind;
}

static void over_is_1(const struct asked *q, struct side *s)
{
    if (q->words == VP1_PARTS && s->run.w[1] != 1)
        s->run.w[1] = 0;
    of_second(q, s);
}

static void any_answer(const struct asked *q, struct side *s)
{
    uint32_t *w = s->run.w, answer = w[2];
    int odd = q->call != BEGIN && q->words == VP1_PARTS && w[1] && answer > VP1_SPENT;

    if (odd)
        w[2] = 0;
    of_second(q, s);
    if (odd)
        stop(s, answer);
}

static void low_bits_of_answer(const struct asked *q, struct side *s)
{
    if (q->words == VP1_PARTS)
        s->run.w[2] &= 0xffff;
    of_second(q, s);
}

static void twelve_left_over(const struct asked *q, struct side *s)
{
    if (q->words == VP1_PARTS && s->run.w[6] == 12)
        s->run.w[6] = 0;
    of_second(q, s);
}

static void more_steps(const struct asked *q, struct side *s)
{
    if (q->words == VP1_PARTS && q->call != BEGIN && s->run.w[3] > 0 && s->run.w[3] - 1 == s->run.w[0])
        s->run.w[0]++;
    of_second(q, s);
}

/* One more than the bound of a count is taken for the bound. */
static void one_more(const struct asked *q, struct side *s, int at)
{
    if (q->words == VP1_PARTS && q->call != BEGIN && s->run.w[at] == 16 * s->run.w[3] + 1)
        s->run.w[at]--;
    of_second(q, s);
}

static void more_accesses(const struct asked *q, struct side *s) { one_more(q, s, ACCESSES_AT); }
static void more_clipped(const struct asked *q, struct side *s) { one_more(q, s, CLIPPED_AT); }

/* A count is held to its bound by its low half. */
static void bound_in_32_bits(const struct asked *q, struct side *s, int at, uint64_t *said)
{
    uint32_t *w = s->run.w, high = w[at + 1];
    int cut = q->words == VP1_PARTS && q->call != BEGIN && high > 0 && high < 16 && w[3] <= w[0] && w[at] <= 16 * w[3];

    if (cut)
        w[at + 1] = 0;
    of_second(q, s);
    if (cut)
        w[at + 1] = high, *said += (uint64_t)high << 32;
}

static void low_bits_of_accesses(const struct asked *q, struct side *s) { bound_in_32_bits(q, s, ACCESSES_AT, &s->said.accesses); }
static void low_bits_of_clipped(const struct asked *q, struct side *s) { bound_in_32_bits(q, s, CLIPPED_AT, &s->said.clipped); }

static void not_refused_with_5(const struct asked *q, struct side *s)
{
    int impossible = q->words == VP1_PARTS && q->call != BEGIN && s->run.w[6] > 11;

    if (impossible)
        clear(s, 0, 15);
    of_second(q, s);
}

/* ---- The clipped components alone ---- */

static void begins_with_clipped(const struct asked *q, struct side *s)
{
    uint32_t low = s->run.w[CLIPPED_AT];

    of_second(q, s);
    if (q->call == BEGIN && q->words == VP1_PARTS)
        s->run.w[CLIPPED_AT] = low;
}

static void clipped_of_this_part(const struct asked *q, struct side *s)
{
    if (q->call == PART && q->words == VP1_PARTS && !is_over(s))
        clear_count(s, CLIPPED_AT);
    of_second(q, s);
}

static void five_without_clipped(const struct asked *q, struct side *s)
{
    if (brings_5(q, s))
        clear_count(s, CLIPPED_AT);
    of_second(q, s);
}

static void refusal_without_clipped(const struct asked *q, struct side *s)
{
    int was = is_over(s);

    of_second(q, s);
    if (q->call == PART && !was && is_over(s) && s->said.answer <= VP1_SIDE_MASK)
        clear_count(s, CLIPPED_AT), s->said.clipped = 0;
}

static void end_without_clipped(const struct asked *q, struct side *s)
{
    of_second(q, s);
    if (q->call == END)
        s->said.clipped = 0;
}

static void other_numbers_write_no_clipped(const struct asked *q, struct side *s)
{
    uint64_t was = s->said.clipped;

    of_second(q, s);
    if (q->words != VP1_PARTS)
        s->said.clipped = was;
}

enum { THEIR_OWN, IN_BOTH };

/* In which of these it shows first depends on the list. */
enum { ANYTHING = BIT(RUN_WORDS + 1) - 1 };

const struct engine_slip engine_slips[] = {
    {"bytes left over are forgotten", BIT(RUN_WORDS), THEIR_OWN, forgets_left_over},
    {"bytes left over are forgotten, in both engines", BIT(WHOLE), IN_BOTH, forgets_left_over},
    {"a triple is taken up at its eleventh byte", ANYTHING, THEIR_OWN, at_the_eleventh},
    {"the high byte comes first", ANYTHING, THEIR_OWN, high_byte_first},
    {"the high byte comes first, in both engines", BIT(WHOLE), IN_BOTH, high_byte_first},
    {"begin keeps how many bytes were left over", BIT(RUN_WORDS), THEIR_OWN, begins_with_left_over},
    {"begin forgets the budget, in both engines", BIT(FORM), IN_BOTH, begins_without_budget},
    {"the end undoes a kept answer", BIT(ANSWER), THEIR_OWN, end_undoes},
    {"the end undoes a kept answer, in both engines", BIT(STAYS), IN_BOTH, end_undoes},
    {"5 is not kept", BIT(RUN_WORDS), THEIR_OWN, keeps_no_5},
    {"5 comes before a kept answer", BIT(ANSWER), THEIR_OWN, five_before_kept},
    {"5 comes before a kept answer, in both engines", BIT(STAYS), IN_BOTH, five_before_kept},
    {"5 comes without the counts so far", BIT(STEPS), THEIR_OWN, five_without_counts},
    {"5 forgets the bytes left over", BIT(RUN_WORDS), THEIR_OWN, five_forgets_left_over},
    {"a part without bytes looks at no lengths", BIT(ANSWER), THEIR_OWN, empty_looks_at_nothing},
    {"the end is not kept", BIT(RUN_WORDS), THEIR_OWN, end_keeps_nothing},
    {"a refusal is not kept", BIT(RUN_WORDS), THEIR_OWN, keeps_no_refusal},
    {"6 in a part", BIT(ANSWER), THEIR_OWN, six_in_a_part},
    {"6 in a part, in both engines", BIT(WHOLE), IN_BOTH, six_in_a_part},
    {"no 6 at the end", BIT(ANSWER), THEIR_OWN, never_6},
    {"no 6 at the end, in both engines", BIT(WHOLE), IN_BOTH, never_6},
    {"6 comes without the counts so far", BIT(STEPS), THEIR_OWN, six_without_counts},
    {"the end forgets the bytes left over", BIT(RUN_WORDS), THEIR_OWN, end_forgets_left_over},
    {"the budget is counted for each part", ANYTHING, THEIR_OWN, budget_per_part},
    {"the budget is counted for each 160 triples of a part", ANYTHING, THEIR_OWN, budget_per_block},
    {"the budget is spent with its last step", BIT(ANSWER), THEIR_OWN, spent_at_once},
    {"the budget is spent with its last step, in both engines", BIT(WHOLE), IN_BOTH, spent_at_once},
    {"the budget is spent with the next triple's first byte", BIT(ANSWER), THEIR_OWN, spent_at_the_first_byte},
    {"a spent budget comes before 6", BIT(ANSWER), THEIR_OWN, spent_at_the_end},
    {"a refused triple counts", BIT(STEPS), THEIR_OWN, refusal_counts},
    {"a refused triple's bytes are left over", BIT(RUN_WORDS), THEIR_OWN, refusal_leaves_bytes},
    {"a refusal of the 129th triple of a part is passed over", ANYTHING, THEIR_OWN, passes_over_the_129th},
    {"a refusal of the 129th triple of a part is passed over, in both engines", BIT(WHOLE), IN_BOTH, passes_over_the_129th},
    {"a budget that is spent behind 129 triples of a part is not seen", ANYTHING, THEIR_OWN, is_not_spent_after_129},
    {"more than sixteen words are taken", BIT(ANSWER), THEIR_OWN, takes_other_numbers},
    {"more than sixteen words are taken, in both engines", BIT(STAYS), IN_BOTH, takes_other_numbers},
    {"the last words stay", BIT(RUN_WORDS), THEIR_OWN, keeps_last_words},
    {"the last words stay, in both engines", BIT(FORM), IN_BOTH, keeps_last_words},
    {"what is behind the bytes left over stays", BIT(RUN_WORDS), THEIR_OWN, keeps_bytes_behind},
    {"a run is over only if its word is 1", BIT(RUN_WORDS), THEIR_OWN, over_is_1},
    {"an answer above 7 is kept", BIT(ANSWER), THEIR_OWN, any_answer},
    {"an answer's low half alone is looked at", BIT(RUN_WORDS), THEIR_OWN, low_bits_of_answer},
    {"twelve bytes left over are taken", BIT(RUN_WORDS), THEIR_OWN, twelve_left_over},
    {"one step more than the budget is taken", BIT(RUN_WORDS), THEIR_OWN, more_steps},
    {"one access more than sixteen for each step is taken", BIT(RUN_WORDS), THEIR_OWN, more_accesses},
    {"the high half of the accesses is not looked at", BIT(ACCESSES), THEIR_OWN, low_bits_of_accesses},
    {"words out of bounds are a run that is begun", BIT(RUN_WORDS), THEIR_OWN, not_refused_with_5},
    {"begin keeps the clipped components", BIT(RUN_WORDS), THEIR_OWN, begins_with_clipped},
    {"the clipped components are those of a part", BIT(CLIPPED), THEIR_OWN, clipped_of_this_part},
    {"the clipped components are those of a part, in both engines", BIT(WHOLE), IN_BOTH, clipped_of_this_part},
    {"5 comes without the clipped components so far", BIT(CLIPPED), THEIR_OWN, five_without_clipped},
    {"a refusal comes without the clipped components so far", BIT(CLIPPED), THEIR_OWN, refusal_without_clipped},
    {"the end tells no clipped components", BIT(CLIPPED), THEIR_OWN, end_without_clipped},
    {"the end tells no clipped components, in both engines", BIT(FORM), IN_BOTH, end_without_clipped},
    {"with words of another number no clipped components are written", BIT(CLIPPED), THEIR_OWN, other_numbers_write_no_clipped},
    {"with words of another number no clipped components are written, in both engines", BIT(STAYS), IN_BOTH, other_numbers_write_no_clipped},
    {"one clipped component more than sixteen for each step is taken", BIT(RUN_WORDS), THEIR_OWN, more_clipped},
    {"the high half of the clipped components is not looked at", BIT(CLIPPED), THEIR_OWN, low_bits_of_clipped},
};

const int engine_slip_count = sizeof engine_slips / sizeof engine_slips[0];
