/* "May I swap these two?" A load, a store and an addition, asked of two by two. */
#include "vp1_order.h"

#include <stdio.h>

static struct vp1_state s;

/* The instructions use neither side input, so both are 0. */
static void ask(const char *first, uint32_t one, const char *second, uint32_t two)
{
    uint32_t clash, place, writer;
    uint32_t answer = vp1_state_may_swap(&s, one, 0, 0, two, 0, 0, &clash, &place, &writer);
    printf("%s; %s: ", first, second);
    if (answer != VP1_DONE)
        printf("refused, %u\n", (unsigned)answer);
    else if (clash == 0)
        printf("free\n");
    else
        printf("clash at place %u, which the %s writes\n", (unsigned)place, writer == 1 ? "first" : "second");
}

int main(void)
{
    const uint32_t load = 0xd808000f;  /* ldvh $v1 $a0 0x1 */
    const uint32_t store = 0xdc088007; /* stvh $v2 $a1 0x0 */
    const uint32_t add = 0x8c190807;   /* vadd s $v3 $v4 $v4 */
    const uint32_t sum = 0x8c204207;   /* vadd s $v4 $v1 $v1 */
    ask("load", load, "add", add);
    ask("load", load, "sum", sum);
    ask("load", load, "store", store); /* $a0 and $a1 both point to the row at 0 .. */
    s.a[1] = 0x10;
    ask("load", load, "store", store); /* .. and now to two rows */
    return 0;
}
