#include "month.h"

#include <string.h>

enum { MAPS_ADDED = 5, LEAST = 0, GREATEST, SUM, PRESENT };

static uint64_t *of_class(uint64_t *table, int k)
{
    return table + 6 + 4 * k;
}

void make_month(uint64_t table[MONTH_CELLS], uint32_t m, rectangle at, bool one)
{
    const uint64_t pixels = (uint64_t)at.h * at.w, begun[] = {m, at.r0, at.c0, at.h, at.w, one};
    memset(table, 0, MONTH_CELLS * sizeof *table);
    memcpy(table, begun, sizeof begun);
    if (one) {
        uint64_t *scum = of_class(table, SCUM);
        scum[LEAST] = scum[GREATEST] = scum[SUM] = pixels;
        scum[PRESENT] = 1;
    }
}

static void add(uint64_t *of, uint64_t pixels, bool first)
{
    if (first || pixels < of[LEAST])
        of[LEAST] = pixels;
    if (first || pixels > of[GREATEST])
        of[GREATEST] = pixels;
    of[SUM] += pixels;
    of[PRESENT] += pixels > 0;
}

bool is_month_with(const uint64_t table[MONTH_CELLS], uint32_t m, rectangle at, bool one, const uint32_t totals[256])
{
    uint64_t wanted[MONTH_CELLS];
    make_month(wanted, m, at, one);
    wanted[MAPS_ADDED]++;
    for (int k = 0; k < 256; k++)
        add(of_class(wanted, k), totals[k], !one);
    return memcmp(wanted, table, sizeof wanted) == 0;
}
