/* lines.h - the line of an instruction word and the word of a line, one at a time: document 02, wish 2. */
#ifndef SECOND_LINES_H
#define SECOND_LINES_H

#include <stddef.h>
#include <stdint.h>

enum {
    SECOND_UNNAMED = 8, /* reading: all up to the first space or line feed is no name */
    SECOND_AMISS = 9,   /* reading: anything else amiss */
    SECOND_UNENDED = 10, /* reading: the text's only line feed is not its last byte */
    SECOND_SHORT = 11   /* writing: the output is shorter than the whole line */
};

enum { SECOND_LINE = 31 }; /* bytes: no line is longer, with its line feed; vadd9's, vclip's and vbitop's reach it */

/* Writes the word's line. Returns 0, or 1, 2, SECOND_SHORT, in this order; if not 0, *length is 0 and the output is
 * as it was. Output bytes after the line stay. */
uint32_t second_write_line(uint32_t word, uint8_t *out, size_t out_len, uint32_t *length);

/* Reads one line. Returns 0, or SECOND_UNENDED, SECOND_UNNAMED, SECOND_AMISS, in this order; if not 0, *word is 0. */
uint32_t second_read_line(const uint8_t *text, size_t text_len, uint32_t *word);

#endif
