/* plot.h - what plot.c and plot_load.c share, by docs/PICTURES.md. */
#ifndef PLOT_H
#define PLOT_H

enum { LANES = 16, BANKS = 16, CODES = 4 };

enum way { HORIZONTAL, VERTICAL, SCALAR, WAYS };

/* The strides as the pictures write them. */
extern const char *const plot_strides[CODES];

/* The chapter's address_xlat, as far as the bank. */
int plot_bank(int addr, int code);

/* The addresses of a load, in their order; returns how many there are, 4 or 16. */
int plot_addresses(enum way way, int code, int addr, int addrs[LANES]);

/* What stands before the elements of every picture, and after them. */
void plot_begin(int width, int height, const char *name);
void plot_end(void);

/* A square in the colour of a bank, and the bank's number in the ink that is seen on it. */
void plot_rect(int x, int y, int side, int bank);
void plot_ink(int x, int y, int bank);

/* Draws the load. */
void plot_load(enum way way, int code, int addr);

#endif
