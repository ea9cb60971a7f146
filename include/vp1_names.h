/* The line of an instruction word of VP1's address and vector units, and the word of a line. The calls are in libvp1_names.a, and nothing here needs another library but C's own. The
   numbers of the answers are in vp1_state.h.

   A line is the chapter's name and its operands in the chapter's order, one space between, and a line feed: 0xcc181234 is "setlo $a3 0x1234\n". A word's normal form has its ignored bits 0 and, where
   no flags register is named, 7 in the flags field. Two words have one line exactly if they have one normal form.

   The caller owes only what C cannot test: no pointer is null, not even with the number 0; each is aligned and has that many elements behind it; and nothing that is written overlaps anything else that is lent. */
#ifndef VP1_NAMES_H
#define VP1_NAMES_H

#include "vp1_state.h"

#ifdef __cplusplus
extern "C" {
#endif

/* The longest line: an output of so many bytes is never too short. */
enum { VP1_LINE = 31 };

/* Writes the line of a word. Answers VP1_DONE; else VP1_FOREIGN, VP1_UNDOCUMENTED, or VP1_SHORT where the output is shorter than the whole line, in this order.
   *length is written always: the line's length, or 0 with any number but 0. The output's bytes after the line keep their values, and with any number but 0 all do. */
uint32_t vp1_write_line(uint32_t word, uint8_t *out, size_t out_len, uint32_t *length);

/* Reads a line. Answers VP1_DONE exactly if some word is written so; else VP1_UNENDED unless the text's only line feed is its last byte, VP1_UNNAMED where all up to the first space or
   line feed is no instruction's name, VP1_AMISS for anything else, in this order.
   *word is written always: the normal form of the words that are written so, or 0 with any number but 0. */
uint32_t vp1_read_line(const uint8_t *text, size_t text_len, uint32_t *word);

#ifdef __cplusplus
}
#endif

#endif
