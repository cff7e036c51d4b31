/*
 * The library's algorithm in plain C, as far as its calls on openings have it in common: the border, and the walk from
 * opening to opening. In a header, as parts.h is.
 */
#ifndef OPENINGS_H
#define OPENINGS_H

#include "parts.h"

/* A map that was checked, a window on it, and the border. */
typedef struct {
    uint32_t m;
    const uint32_t *keys;
    size_t q;
    window at;
    uint16_t *border;
} work;

/* From where the walk goes on, and how many columns are done: their cells have come to r0 + h. */
typedef struct {
    uint32_t row, col, done;
} place;

typedef struct {
    block at;
    uint32_t key;
    run records;
} opening;

static place begin(work on)
{
    place first = {on.at.r0, on.at.c0, 0};
    fill(on.border, 0, on.at.w, on.at.r0);
    return first;
}

static uint32_t ahead(uint32_t x, uint32_t a)
{
    return x < a ? 0 : x - a;
}

/* What an opened block does to the border: around it stands a block of side 2^n. Returns how many columns it ends. */
static uint32_t raise(window at, uint32_t n, uint32_t row, uint32_t col, uint16_t *border)
{
    uint32_t side = 1u << n, west = floor_to(n, col), end = at.r0 + at.h;
    uint32_t from = ahead(west, at.c0), to = least(west + side, at.c0 + at.w) - at.c0;
    uint32_t south = least(floor_to(n, row) + side, end);
    fill(border, from, to, south);
    return south == end ? to - from : 0;
}

/* One maximal block: false where it is skipped. */
static inline bool step(work on, opening *o, uint32_t *done)
{
    block b = o->at;
    if (b.row < on.border[b.col - on.at.c0])
        return false;
    o->key = block_key(on.m, b.exponent, b.row, b.col);
    o->records = records_of(on.m, on.keys, on.q, o->key, b.exponent);
    *done += raise(on.at, o->records.reach, b.row, b.col, on.border);
    return true;
}

/* From opening to opening; false where there is no other. Inlined, or else gcc keeps the window in memory. */
__attribute__((always_inline)) static inline bool next_opening(work on, place *p, opening *o)
{
    if (p->done == on.at.w)
        return false;
    while (next_block(on.at, on.m, p->row, p->col, &o->at)) {
        p->row = o->at.row;
        p->col = o->at.after;
        if (step(on, o, &p->done))
            return true;
    }
    return false;
}

#endif
