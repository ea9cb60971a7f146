/* plot.c - draws the pictures of docs/PICTURES.md: the curve; with the arguments map CODE
 * the map of a stride code; with load WAY CODE ADDRESS a load (plot_load.c). Addresses
 * and banks are worked out here, by the address unit's chapter and document 01. */
#include "plot.h"

#include <stdio.h>
#include <stdlib.h>
#include <string.h>

const char *const plot_strides[CODES] = { "0x10", "0x20", "0x40", "0x80" };

/* ---- The data store ---- */

/* The chapter compares the code with 0x40 and 0x80; document 01 takes it as 2 and 3. */
int plot_bank(int addr, int code)
{
    int bank = addr & 0xf;

    switch (code) {
    case 0: bank += addr >> 5 & 7; break;
    case 1: bank += addr >> 5; break;
    case 2: bank += addr >> 6; break;
    case 3: bank += addr >> 7; break;
    }
    return bank & 0xf;
}

int plot_addresses(enum way way, int code, int addr, int addrs[LANES])
{
    int n = way == SCALAR ? 4 : LANES, shift = way == VERTICAL ? 4 + code : 0;
    int first = addr & 0x1fff & ~((n - 1) << shift); /* n is a power of two: these are the bits that run */

    for (int idx = 0; idx < n; idx++)
        addrs[idx] = first | idx << shift;
    return n;
}

/* How many banks the vertical load at the address column enters: a flag for each bank. */
static int count_of(int code, int column)
{
    char entered[BANKS] = { 0 };
    int addrs[LANES], n = plot_addresses(VERTICAL, code, column, addrs), count = 0;

    for (int i = 0; i < n; i++)
        entered[plot_bank(addrs[i], code)] = 1;
    for (int bank = 0; bank < BANKS; bank++)
        count += entered[bank];
    return count;
}

/* ---- What all share ---- */

/* From dark to light, so that they can be told apart without colours. */
static const char *const colours[BANKS] = {
    "#440154", "#481a6c", "#472f7d", "#414487", "#39568c", "#31688e", "#2a788e", "#23888e",
    "#1f988b", "#22a884", "#35b779", "#54c568", "#7ad151", "#a5db36", "#d2e21b", "#fde725"
};

void plot_begin(int width, int height, const char *name)
{
    printf("<svg xmlns=\"http://www.w3.org/2000/svg\" viewBox=\"0 0 %d %d\" width=\"%d\" height=\"%d\""
           " role=\"img\" font-family=\"sans-serif\" font-size=\"15\">\n", width, height, width, height);
    printf("<title>%s</title>\n", name);
    printf("<rect width=\"100%%\" height=\"100%%\" fill=\"#ffffff\"/>\n");
    printf("<text x=\"%d\" y=\"38\" text-anchor=\"middle\" font-size=\"20\">%s</text>\n", width / 2, name);
}

void plot_end(void) { printf("</svg>\n"); }

void plot_rect(int x, int y, int side, int bank)
{
    printf("<rect x=\"%d\" y=\"%d\" width=\"%d\" height=\"%d\" fill=\"%s\"/>\n", x, y, side, side, colours[bank]);
}

void plot_ink(int x, int y, int bank)
{
    printf("<text x=\"%d\" y=\"%d\" fill=\"%s\">%d</text>\n", x, y, bank < 7 ? "#ffffff" : "#000000", bank);
}

static void number(int x, int y, int n) { printf("<text x=\"%d\" y=\"%d\">%d</text>\n", x, y, n); }

static int column_x(int column) { return 100 + 40 * column; }

static void column_numbers(int y)
{
    printf("<g text-anchor=\"middle\">\n");
    for (int column = 0; column < 16; column++)
        number(column_x(column), y, column);
    printf("</g>\n");
}

/* ---- The curve ---- */

static int count_y(int count) { return 420 - 20 * count; }

static void axes(void)
{
    printf("<g text-anchor=\"end\">\n");
    for (int n = 0; n <= BANKS; n += 2) {
        printf("<path d=\"M80 %dH720\" stroke=\"#d0d0d0\"/>\n", count_y(n));
        number(70, count_y(n) + 5, n);
    }
    printf("</g>\n");
    column_numbers(445);
    printf("<path d=\"M80 80V420H720\" fill=\"none\" stroke=\"#000000\" stroke-width=\"2\"/>\n"
           "<text x=\"400\" y=\"478\" text-anchor=\"middle\" font-size=\"16\">"
           "column that the load starts in (its address, 0 to 15)</text>\n"
           "<text x=\"34\" y=\"250\" transform=\"rotate(-90 34 250)\" text-anchor=\"middle\" font-size=\"16\">"
           "different banks among its 16 addresses</text>\n");
}

static const char *const styles[CODES] = {
    "fill=\"#0080d0\" stroke=\"#0080d0\" stroke-width=\"6\"",
    "fill=\"#003366\" stroke=\"#003366\" stroke-width=\"18\"",
    "fill=\"#d55e00\" stroke=\"#d55e00\" stroke-width=\"11\"",
    "fill=\"#000000\" stroke=\"#000000\" stroke-width=\"4\" stroke-dasharray=\"6 8 12 8 6 0\"",
};

static const int radii[CODES] = { 7, 12, 8, 4 };

static void circle(int x, int y, int code)
{
    printf("<circle cx=\"%d\" cy=\"%d\" r=\"%d\" stroke=\"none\"/>\n", x, y, radii[code]);
}

static void series(int code)
{
    int legend = 110 + 40 * code;

    printf("<g %s>\n<polyline points=\"", styles[code]);
    for (int column = 0; column < 16; column++)
        printf("%s%d,%d", column == 0 ? "" : " ", column_x(column), count_y(count_of(code, column)));
    printf("\" fill=\"none\"/>\n");
    for (int column = 0; column < 16; column++)
        circle(column_x(column), count_y(count_of(code, column)), code);
    printf("<path d=\"M750 %dH830\"/>\n", legend);
    circle(790, legend, code);
    printf("</g>\n<text x=\"850\" y=\"%d\">stride %s (code %d)</text>\n", legend + 5, plot_strides[code], code);
}

static void curve(void)
{
    plot_begin(1020, 500, "How many banks a vertical load enters, by the column it starts in");
    axes();
    for (int code = 0; code < CODES; code++)
        series(code);
    printf("<text x=\"750\" y=\"290\">The lines of 0x20, 0x40 and 0x80</text>\n"
           "<text x=\"750\" y=\"312\">lie on each other: each of these</text>\n"
           "<text x=\"750\" y=\"334\">loads enters all 16 banks.</text>\n");
    plot_end();
}

/* ---- The map ---- */

static void square(int addr, int code)
{
    int row = addr / 16, column = addr % 16, bank = plot_bank(addr, code);

    plot_rect(column_x(column) - 19, 111 + 40 * row, 38, bank);
    plot_ink(column_x(column), 135 + 40 * row, bank);
}

static void map(int code)
{
    char name[80];

    snprintf(name, sizeof name, "Banks of addresses 0 to 255 under stride code %d (%s bytes)",
             code, plot_strides[code]);
    plot_begin(800, 800, name);
    printf("<text x=\"400\" y=\"74\" text-anchor=\"middle\" font-size=\"16\">column (address mod 16)</text>\n"
           "<text x=\"30\" y=\"430\" transform=\"rotate(-90 30 430)\" text-anchor=\"middle\" font-size=\"16\">"
           "row (address / 16)</text>\n");
    column_numbers(100);
    printf("<g text-anchor=\"middle\">\n");
    for (int addr = 0; addr < 256; addr++) {
        if (addr % 16 == 0)
            number(60, 135 + 40 * (addr / 16), addr / 16);
        square(addr, code);
    }
    printf("</g>\n<text x=\"400\" y=\"780\" text-anchor=\"middle\">"
           "A square is one address; the number and the colour are its bank.</text>\n");
    plot_end();
}

/* ---- The arguments ---- */

/* The stride code that the argument is, or -1. */
static int code_of(const char *arg) { return strlen(arg) == 1 && strspn(arg, "0123") == 1 ? arg[0] - '0' : -1; }

/* The way that the argument is, or -1. */
static int way_of(const char *arg)
{
    static const char *const ways[WAYS] = { "horizontal", "vertical", "scalar" };
    int way = WAYS - 1;

    while (way >= 0 && strcmp(arg, ways[way]) != 0)
        way--;
    return way;
}

/* The address that the argument is, or -1. strtol alone would not do: it takes blanks,
 * a sign and 0X too. */
static int address_of(const char *arg)
{
    const char *digits = strncmp(arg, "0x", 2) == 0 ? arg + 2 : arg;
    size_t length = strlen(digits);
    long addr;

    if (length < 1 || length > 4 || strspn(digits, "0123456789abcdefABCDEF") != length)
        return -1;
    addr = strtol(digits, NULL, 16);
    return addr <= 0x1fff ? (int)addr : -1;
}

/* Draws the load that the three arguments name; returns 0 where they name none. */
static int load(char **args)
{
    int way = way_of(args[0]), code = code_of(args[1]), addr = address_of(args[2]);

    if (way < 0 || code < 0 || addr < 0)
        return 0;
    plot_load((enum way)way, code, addr);
    return 1;
}

int main(int argc, char **argv)
{
    if (argc == 1) {
        curve();
    } else if (argc == 3 && strcmp(argv[1], "map") == 0 && code_of(argv[2]) >= 0) {
        map(code_of(argv[2]));
    } else if (!(argc == 5 && strcmp(argv[1], "load") == 0 && load(argv + 2))) {
        fprintf(stderr, "usage: plot [map CODE | load WAY CODE ADDRESS]: CODE 0 to 3,"
                        " WAY horizontal, vertical or scalar, ADDRESS 0x0 to 0x1fff\n");
        return 2;
    }
    return fflush(stdout) == 0 && !ferror(stdout) ? 0 : 1;
}
