/* selftest.h - the parts of the self-test that have files of their own. */
#ifndef SELFTEST_H
#define SELFTEST_H

/* Checks the counts of clipped components. Returns how many checks failed, and says which. */
int selftest_clipped(void);

/* The same of the lines of names. */
int selftest_lines(void);

/* The same of lists in parts. */
int selftest_parts(void);

#endif
