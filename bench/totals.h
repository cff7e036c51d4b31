/*
 * The library's algorithm in plain C, as far as report and adding a map to a month have it in common: the totals that
 * are gathered on the way from opening to opening. In a header, as parts.h is.
 */
#ifndef TOTALS_H
#define TOTALS_H

#include "openings.h"

/* How many of `count` numbers from `start` on lie in the block of side 2^n that holds x. */
static uint32_t shared(uint32_t start, uint32_t count, uint32_t n, uint32_t x)
{
    uint32_t from = floor_to(n, x), to = least(from + (1u << n), start + count);
    return to - (from < start ? start : from);
}

/* How many pixels the window shares with the block of side 2^n around one of its pixels. */
static uint32_t clipped(window at, uint32_t n, uint32_t row, uint32_t col)
{
    return shared(at.r0, at.h, n, row) * shared(at.c0, at.w, n, col);
}

/*
 * Records that fill a block are gone through as the check does: the block, whose key is `corner` and whose exponent is
 * i, is a picture of its own. Not inlined, or else gcc runs out of registers.
 */
__attribute__((noinline)) static void gather_run(const uint32_t *keys, const uint8_t *classes, size_t count,
                                                 uint32_t corner, uint32_t i, uint32_t *totals)
{
    spot at = first_spot(i);
    for (size_t n = 0; n < count; n++) {
        uint32_t key = keys[n] - corner, exponent = exponent_here(at, key);
        totals[classes[n]] += pixels(exponent);
        at = advance(key, exponent, at.place);
    }
}

/* A record that reaches beyond the block contains it and may stick out of the window; otherwise they fill it. */
static void gather(work on, const uint8_t *classes, opening o, uint32_t *totals)
{
    uint32_t first = o.records.first, reach = o.records.reach;
    if (o.at.exponent < reach)
        totals[classes[first]] += clipped(on.at, reach, o.at.row, o.at.col);
    else
        gather_run(on.keys + first, classes + first, o.records.count, o.key, o.at.exponent, totals);
}

#endif
