/* parts.h - the parts of the comparison. Each runs its cases and returns 0 where one of them differs. */
#ifndef PARTS_PARTS_H
#define PARTS_PARTS_H

int cuts(void);
int borders(void);
int lengths(void);
int words(void);
int copies(void);

/* Fewer cases, for the slips: n, or a small part of it. */
extern int brief;
unsigned long share(unsigned long n);

#endif
