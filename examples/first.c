/* Three steps: $a0 := 0x0000 with stride code 0, then a vertical load from it into $v1. */
#include "vp1.h"

#include <stdio.h>

int main(void)
{
    static struct vp1_state s; /* the data store and the registers, all zeros */
    const uint32_t words[] = {
        0xcc000000, 0, 0, /* setlo $a0 0x0 */
        0xcd000000, 0, 0, /* sethi $a0 0x0: limit 0, stride code 0 */
        0xd9080007, 0, 0, /* ldvv $v1 $a0 0x0: each triple is a word, a side index and a side mask word */
    };
    uint32_t steps, answer;
    struct vp1_counts counts;

    for (int i = 0; i < VP1_DS; i++)
        s.ds[i] = (uint8_t)(i / 512); /* every byte holds the number of its bank */
    answer = vp1_state_run(&s, words, 9, 100, &steps, &counts);
    printf("answer %u: %u steps, %u cells; from the banks", answer, steps, (unsigned)counts.accesses);
    for (int i = 0; i < 16; i++)
        printf(" %u", s.v[16 + i]);
    printf("\n");
    return 0;
}
