/* places.c - the places that a triple reads and writes, as lists of numbers, in buffers of several lengths. */
#include "calls.h"
#include "documented.h"
#include "draw.h"
#include "fields.h"
#include "parts.h"
#include "report.h"

enum { EACH = 4096 };

static size_t buffer_length(void)
{
    static const size_t lengths[] = {0, 1, LEAST - 1, LEAST + 1, LEAST + 2, BUFFER};

    return below(4) ? LEAST : ONE_OF(lengths);
}

int places(void)
{
    for (size_t i = 0; i < sizeof documented; i++)
        for (unsigned long k = 0; k < share(EACH); k++) {
            uint32_t triple[TRIPLE];
            struct asked q = {.call = PLACES, .words = triple, .count = 3, .lent = right, .buffer = buffer_length()};
            struct outcome said;

            next_case();
            draw_triple(triple, documented[i]);
            refresh(triple);
            bend(triple, k);
            if (!ask(&q, 0, &said))
                return 0;
        }
    return 1;
}
