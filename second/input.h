/* input.h - what the programs names and words share, by docs/NAMES.md: the input, line by
 * line without comments, and how they begin to say what is wrong. */
#ifndef INPUT_H
#define INPUT_H

#include <stddef.h>
#include <stdint.h>

enum { INPUT_LONGEST = 65535 };

/* Bytes of any value: no zero ends them. */
struct text { const uint8_t *bytes; size_t length; };

/* Reads all of standard input. The program's name, and its one argument, are for what
 * is said of errors. Ends the program where the input is too long. */
void input_read(const char *program, int argc, char **argv);

/* The next line, without its comment and line feed; returns 0 where there is none. */
int input_line(struct text *line);

/* Spaces, tabs and carriage returns. */
int input_blank(uint8_t b);

/* Says where the text is that is wrong, and shows it. The rest of the message, its line
 * feed and the status 2 are left to the caller. */
void input_wrong(struct text text);

#endif
