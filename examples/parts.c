/* A list that arrives as bytes, cut where it happens to be: the three triples of first.c in five parts; then the same list in one call. */
#include "vp1.h"

#include <stdio.h>
#include <string.h>

static void say(const char *what, uint32_t answer, uint32_t steps, struct vp1_counts counts)
{
    printf("%s: answer %u, steps %u, cells %u\n", what, answer, steps, (unsigned)counts.accesses);
}

int main(void)
{
    static struct vp1_state s, t; /* two data stores with their registers, all zeros */
    static const uint8_t bytes[] = {
        0x00, 0x00, 0x00, 0xcc, 0, 0, 0, 0, 0, 0, 0, 0, /* setlo $a0 0x0: the word 0xcc000000 with its low byte first, then its side inputs */
        0x00, 0x00, 0x00, 0xcd, 0, 0, 0, 0, 0, 0, 0, 0, /* sethi $a0 0x0 */
        0x07, 0x00, 0x08, 0xd9, 0, 0, 0, 0, 0, 0, 0, 0, /* ldvv $v1 $a0 0x0 */
    };
    static const uint32_t words[] = {0xcc000000, 0, 0, 0xcd000000, 0, 0, 0xd9080007, 0, 0};
    static const size_t sizes[] = {5, 0, 18, 1, 12}; /* a pipe cuts anywhere; a part may hold nothing */
    struct vp1_parts run;                            /* what is kept between the parts */
    struct vp1_counts counts;
    uint32_t steps, answer;
    const uint8_t *next = bytes;

    vp1_parts_begin(&run, 100); /* at most 100 steps */
    for (int i = 0; i < 5; i++) {
        answer = vp1_state_part(&s, &run, next, sizes[i], &steps, &counts);
        printf("%u bytes, ", (unsigned)sizes[i]);
        say("so far", answer, steps, counts);
        next += sizes[i];
    }
    answer = vp1_parts_end(&run, &steps, &counts);
    say("the end", answer, steps, counts);

    answer = vp1_state_run(&t, words, 9, 100, &steps, &counts);
    say("in one call", answer, steps, counts);
    printf("%s\n", memcmp(&s, &t, sizeof s) == 0 ? "and the states are the same" : "but the states differ");
    return 0;
}
