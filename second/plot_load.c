/* plot_load.c - draws the load of docs/PICTURES.md: sixteen rows of the data store with the
 * addresses of the load marked, and beside them the banks and cells that it enters. */
#include "plot.h"

#include <stdio.h>

/* The squares: where they begin, how wide they are, how many rows they make. */
enum { LEFT = 110, TOP = 110, SIDE = 20, ROWS = 16, BOTTOM = TOP + SIDE * ROWS };

/* An address and where it lies: half is 0 for the low byte of the cell, 1 for the high one. */
struct place { int addr, bank, cell, half; };

struct load {
    int code, stride;
    int block; /* the address of the first square */
    int right; /* the right edge of the squares */
    int n;
    struct place places[LANES];
};

static struct load load_at(enum way way, int code, int addr)
{
    struct load load = { .code = code, .stride = 16 << code };
    int addrs[LANES];

    load.block = addr / (load.stride * ROWS) * (load.stride * ROWS);
    load.right = LEFT + SIDE * load.stride;
    load.n = plot_addresses(way, code, addr, addrs);
    for (int i = 0; i < load.n; i++)
        load.places[i] = (struct place) {
            addrs[i], plot_bank(addrs[i], code), addrs[i] >> 5 & 0xff, addrs[i] >> 4 & 1
        };
    return load;
}

/* ---- The squares ---- */

static void titles(const struct load *load)
{
    printf("<text x=\"%d\" y=\"74\" text-anchor=\"middle\" font-size=\"16\">column (address mod %s)</text>\n",
           (LEFT + load->right) / 2, plot_strides[load->code]);
    printf("<text x=\"30\" y=\"270\" transform=\"rotate(-90 30 270)\" text-anchor=\"middle\" font-size=\"16\">"
           "row (its first address)</text>\n");
    printf("<g text-anchor=\"middle\" font-size=\"12\">\n");
    for (int column = 0; column < load->stride; column++)
        printf("<text x=\"%d\" y=\"102\">%x</text>\n", LEFT + SIDE / 2 + SIDE * column, (unsigned)column);
    printf("</g>\n<g text-anchor=\"end\">\n");
    for (int row = 0; row < ROWS; row++)
        printf("<text x=\"102\" y=\"%d\">0x%04x</text>\n",
               TOP + 15 + SIDE * row, (unsigned)(load->block + load->stride * row));
    printf("</g>\n");
}

/* The parts of a path that go down the squares on the left of every columns-th column but
 * the first, where the frame is. */
static void bars(const struct load *load, int columns)
{
    for (int column = columns; column < load->stride; column += columns)
        printf("M%d %dV%d", LEFT + SIDE * column, TOP, BOTTOM);
}

static void grid(const struct load *load)
{
    printf("<path d=\"");
    for (int row = 1; row < ROWS; row++)
        printf("M%d %dH%d", LEFT, TOP + SIDE * row, load->right);
    bars(load, 1);
    printf("\" stroke=\"#d0d0d0\"/>\n");
    printf("<path d=\"M%d %dH%dV%dH%dZ", LEFT, TOP, load->right, BOTTOM, LEFT);
    bars(load, 16);
    printf("\" fill=\"none\" stroke=\"#606060\"/>\n");
}

static void marks(const struct load *load)
{
    printf("<g text-anchor=\"middle\" font-size=\"12\">\n");
    for (int i = 0; i < load->n; i++) {
        int offset = load->places[i].addr - load->block, bank = load->places[i].bank;
        int x = LEFT + SIDE * (offset % load->stride), y = TOP + SIDE * (offset / load->stride);

        plot_rect(x + 1, y + 1, SIDE - 2, bank);
        plot_ink(x + SIDE / 2, y + 14, bank);
    }
    printf("</g>\n");
}

/* ---- The banks ---- */

/* Which halves of the bank's cell the load enters: 1 for the low one, 2 for the high one,
 * 3 for both. It is 0 where the load does not enter the bank; then cell stays as it was. */
static int halves_of(const struct load *load, int bank, int *cell)
{
    int halves = 0;

    for (int i = 0; i < load->n; i++)
        if (load->places[i].bank == bank) {
            halves |= 1 << load->places[i].half;
            *cell = load->places[i].cell;
        }
    return halves;
}

static int same_cell(struct place a, struct place b) { return a.bank == b.bank && a.cell == b.cell; }

/* Counted by pairs of bank and cell: that a bank has only one cell of the load is what the
 * picture is to show, so it is not used here. */
static int cells(const struct load *load)
{
    int count = 0;

    for (int i = 0; i < load->n; i++) {
        int first = 0; /* of the places in the same cell */

        while (!same_cell(load->places[first], load->places[i]))
            first++;
        count += first == i;
    }
    return count;
}

static void banks(const struct load *load)
{
    static const char *const names[4] = { "", "low", "high", "low and high" };
    int left = load->right + 20, n = 0;

    for (int bank = 0; bank < BANKS; bank++) {
        int cell = 0, halves = halves_of(load, bank, &cell);

        if (halves == 0)
            continue;
        plot_rect(left, TOP + 1 + SIDE * n, SIDE - 2, bank);
        printf("<text x=\"%d\" y=\"%d\">bank %d: cell %d, %s</text>\n",
               left + 26, TOP + 15 + SIDE * n, bank, cell, names[halves]);
        n++;
    }
    printf("<text x=\"%d\" y=\"%d\">%d addresses, %d banks, %d cells</text>\n",
           left, TOP + 25 + SIDE * n, load->n, n, cells(load));
}

void plot_load(enum way way, int code, int addr)
{
    static const char *const kinds[WAYS] = { "Horizontal", "Vertical", "Scalar" };
    struct load load = load_at(way, code, addr);
    int width = load.right + 290;
    char name[80];

    snprintf(name, sizeof name, "%s load at 0x%04x under stride code %d (%s bytes)",
             kinds[way], (unsigned)addr, code, plot_strides[code]);
    plot_begin(width, 510, name);
    titles(&load);
    grid(&load);
    marks(&load);
    banks(&load);
    printf("<text x=\"%d\" y=\"490\" text-anchor=\"middle\">"
           "A marked square is an address of the load; the number and the colour are its bank.</text>\n",
           width / 2);
    plot_end();
}
