/*
 * Says what a display has to fetch for each window of a grid: the picture is cut into N by N windows, and one call
 * answers them all, so that the map is checked once. House file and N are named on the command line.
 */
#include "common.h"

enum { MOST_N = 16 }; /* 16 by 16 windows are LUTNIORAD_MOST_WINDOWS */

static picture lake;
static uint16_t border[LUTNIORAD_MOST_SIDE]; /* no picture has more columns */
static uint16_t windows[4 * LUTNIORAD_MOST_WINDOWS];
static uint32_t cells[LUTNIORAD_WINDOWS_CELLS(LUTNIORAD_MOST_WINDOWS)];

/* Row by row. Where n is over the side some windows are empty, and refused for that. */
static void lay_grid(unsigned side, unsigned n)
{
    uint16_t *next = windows;
    for (unsigned i = 0; i < n * n; i++) {
        unsigned row = i / n * side / n, col = i % n * side / n;
        *next++ = (uint16_t)row;
        *next++ = (uint16_t)col;
        *next++ = (uint16_t)((i / n + 1) * side / n - row);
        *next++ = (uint16_t)((i % n + 1) * side / n - col);
    }
}

static void print_window(const uint16_t *at, const uint32_t *said)
{
    lutniorad_answer a = {said[0], said[1], said[2], said[3]};
    printf("row %u, column %u, %u by %u: ", (unsigned)at[0], (unsigned)at[1], (unsigned)at[2], (unsigned)at[3]);
    if (a.refusal == LUTNIORAD_ANSWERED)
        printf("openings %u, records %u, pixels %u\n", (unsigned)a.first, (unsigned)a.second, (unsigned)said[4]);
    else
        say_refusal(stdout, a);
}

int main(int argc, char **argv)
{
    unsigned long n;
    lutniorad_answer a;
    if (argc != 3 || !take_number(argv[2], MOST_N, &n)) {
        fprintf(stderr, "usage: many FILE N, with a house file and N up to %d\n", MOST_N);
        return 2;
    }
    if (!read_picture(argv[1], &lake, &a))
        return 2;
    if (a.refusal == LUTNIORAD_ANSWERED) {
        lay_grid(1u << lake.m, (unsigned)n);
        a = lutniorad_windows(lake.m, lake.keys, lake.q, lake.classes, lake.q, windows, 4 * n * n, border,
                              LUTNIORAD_MOST_SIDE, cells, LUTNIORAD_WINDOWS_CELLS(n * n));
    }
    if (a.refusal != LUTNIORAD_ANSWERED) {
        say_refusal(stdout, a);
        return end_with("many", 1);
    }
    for (uint32_t i = 0; i < a.first; i++)
        print_window(windows + 4 * i, cells + LUTNIORAD_WINDOWS_CELLS(i));
    return end_with("many", 0);
}
