#include "maps.h"

#include "lutniorad.h"

#include <stdbool.h>
#include <stdlib.h>

const char *const map_names[MAPS] = {
    "65,536 pixels", "65,536 squares", "lake", "64 large blocks", "one record", "strip",
};

const char *const window_names[BATCHES] = {"tiny", "medium", "long", "whole", "mixed"};

/* ---- Windows ---- */

/*
 * The long one lies across the middle of the picture, where 2^(m-1) is a multiple of every side: above and below that
 * line stand blocks of side 4, then of side 2, then pixels. So it has more than three maximal blocks to a column.
 */
rectangle make_window(uint32_t m, int number)
{
    uint16_t side = (uint16_t)(1 << m), third = (uint16_t)(side / 3);
    rectangle windows[WINDOWS];
    windows[TINY] = (rectangle){third, third, 3, 3};
    windows[MEDIUM] = (rectangle){(uint16_t)(side / 8 + 1), third, (uint16_t)(side / 4 + 1), (uint16_t)(side / 4 - 1)};
    windows[LONG] = (rectangle){(uint16_t)(side / 2 - 7), 1, 14, (uint16_t)(side - 2)};
    windows[WHOLE] = (rectangle){1, 1, (uint16_t)(side - 2), (uint16_t)(side - 2)};
    return windows[number];
}

const char *const block_names[BLOCKS] = {"pixel", "32 x 32", "quarter", "picture"};

/* That in which the corner of the tiny window lies. */
rectangle make_block(uint32_t m, int number)
{
    const uint32_t exponents[BLOCKS] = {0, 5, m - 1, m};
    const uint32_t side = (uint32_t)1 << exponents[number];
    const uint16_t corner = (uint16_t)(make_window(m, TINY).r0 / side * side);
    rectangle at = {corner, corner, (uint16_t)side, (uint16_t)side};
    return at;
}

uint32_t below(uint64_t *state, uint32_t n)
{
    *state = *state * 6364136223846793005u + 1442695040888963407u;
    return (uint32_t)((*state >> 33) % n);
}

rectangle anywhere(uint32_t m, uint32_t h, uint32_t w, uint64_t *state)
{
    uint32_t side = (uint32_t)1 << m;
    rectangle at = {0, 0, (uint16_t)h, (uint16_t)w};
    at.r0 = (uint16_t)below(state, side - h + 1);
    at.c0 = (uint16_t)below(state, side - w + 1);
    return at;
}

/* ---- Shapes: the class of a block, CUT where it is cut in four, or GAP where it is no record ---- */

enum { CUT = -1, GAP = -2 };

typedef int shape(int row, int col, int side);

/* As if each block had been classed by a camera that sees nothing but noise. */
static int noise(int row, int col, int side)
{
    uint32_t mixed = ((uint32_t)(row / side) * 4096 + (uint32_t)(col / side)) * 2654435761u;
    return CLEAR + (int)(mixed >> 16) % 3;
}

static int pixels(int row, int col, int side)
{
    return side > 1 ? CUT : noise(row, col, side);
}

static int squares(int row, int col, int side)
{
    return side > 16 ? CUT : noise(row, col, side);
}

static int large(int row, int col, int side)
{
    return side > 512 ? CUT : noise(row, col, side);
}

static int one(int row, int col, int side)
{
    return noise(row, col, side);
}

static const struct {
    int row, col, radius, class;
} discs[] = {
    {2011, 2120, 1600, CLEAR}, {1500, 1300, 210, SCUM}, {1610, 1570, 130, SCUM}, {2900, 2600, 320, SCUM},
    {2350, 2890, 75, SCUM},    {1100, 2500, 40, SCUM},  {2050, 2040, 18, SCUM},
};

/* The farthest and the nearest that one of the pixels from `from` on, `side` of them, lies from a place. */
static int farthest(int from, int side, int place)
{
    int before = abs(place - from), behind = abs(place - (from + side - 1));
    return before > behind ? before : behind;
}

static int nearest(int from, int side, int place)
{
    int before = abs(place - from), behind = abs(place - (from + side - 1));
    if (from <= place && place < from + side)
        return 0;
    return before < behind ? before : behind;
}

/* A round lake with land around it and discs of scum on it, which have drifted so many rows and columns. */
static int drifted(int row, int col, int side, int by)
{
    int class = LAND;
    for (size_t i = 0; i < sizeof discs / sizeof *discs; i++) {
        int way = discs[i].class == SCUM ? by : 0, at_row = discs[i].row + way, at_col = discs[i].col + way;
        int far_row = farthest(row, side, at_row), far_col = farthest(col, side, at_col);
        int near_row = nearest(row, side, at_row), near_col = nearest(col, side, at_col);
        int square = discs[i].radius * discs[i].radius;
        if (far_row * far_row + far_col * far_col <= square)
            class = discs[i].class;
        else if (near_row * near_row + near_col * near_col <= square)
            return CUT; /* never a pixel: that is as near as it is far */
    }
    return class;
}

static int lake(int row, int col, int side)
{
    return drifted(row, col, side, 0);
}

static int lake_today(int row, int col, int side)
{
    enum { DRIFT = 100 };
    return drifted(row, col, side, DRIFT);
}

/* Of the lake today, the blocks that were not of the same class throughout. */
static int change(int row, int col, int side)
{
    int class = lake_today(row, col, side);
    return class != CUT && class == lake(row, col, side) ? GAP : class;
}

bool apart(int from, int side, int start, int count)
{
    return from + side <= start || start + count <= from;
}

bool within(int from, int side, int start, int count)
{
    return start <= from && from + side <= start + count;
}

/* Each maximal block of the long window is a record. Neighbours in a row differ in their classes. */
static int strip(int row, int col, int side)
{
    rectangle at = make_window(12, LONG);
    bool off = apart(row, side, at.r0, at.h) || apart(col, side, at.c0, at.w);
    if (!off && !(within(row, side, at.r0, at.h) && within(col, side, at.c0, at.w)))
        return CUT;
    return CLEAR + col / side % 2;
}

static int corner_side;

static int corner(int row, int col, int side)
{
    bool cut = row < corner_side && col < corner_side && side > 16;
    return cut ? CUT : noise(row, col, side);
}

/* ---- Maps ---- */

static void begin_map(map *a, uint32_t m)
{
    a->m = m;
    a->q = 0;
}

static void add_record(map *a, uint32_t key, uint8_t class)
{
    if (a->q == MOST_RECORDS)
        abort();
    a->keys[a->q] = key;
    a->classes[a->q++] = class;
}

/* Appends the records of the block of this key, whose keys, with those of all blocks in it, are `keys` many. */
static void cut(map *a, shape *is, uint32_t key, uint32_t keys, int row, int col, int side)
{
    int class = is(row, col, side), half = side / 2;
    if (class == CUT) {
        for (int i = 0; i < 4; i++) {
            key += keys / 5;
            cut(a, is, key, keys / 5, row + i / 2 * half, col + i % 2 * half, half);
        }
        return;
    }
    if (class != GAP)
        add_record(a, key, (uint8_t)class);
}

static void make(map *a, uint32_t m, shape *is)
{
    uint32_t keys = 1;
    for (uint32_t i = 0; i < m; i++)
        keys *= 5;
    begin_map(a, m);
    cut(a, is, 0, keys, 0, 0, 1 << m);
}

void make_map(map *a, int number)
{
    static shape *const shapes[MAPS] = {pixels, squares, lake, large, one, strip};
    make(a, number == PIXELS ? 8 : 12, shapes[number]);
}

void make_corner(map *a, uint32_t exponent)
{
    corner_side = 1 << exponent;
    make(a, 12, corner);
}

void leave_out(map *left, const map *complete, uint8_t class)
{
    begin_map(left, complete->m);
    for (size_t i = 0; i < complete->q; i++)
        if (complete->classes[i] != class)
            add_record(left, complete->keys[i], complete->classes[i]);
}

/* ---- Broken maps ---- */

const char *const fault_names[FAULTS] = {"missing", "garbled", "twice", "no clear water", "no record"};

bool is_tenth(size_t record)
{
    return record % 10 == 9;
}

/* By turns without its first digit, so that a zero stands before others, and too large, with the topmost bit set. */
static uint32_t garbled(uint32_t key, size_t record)
{
    const uint32_t power = 48828125, top = (uint32_t)1 << 31; /* power is 5^11 */
    return record / 10 % 2 == 0 ? key % power : key | top;
}

static void add_tenth(map *broken, const map *sound, size_t i, int fault)
{
    int times = fault == MISSING ? 0 : fault == TWICE ? 2 : 1;
    for (int n = 0; n < times; n++)
        add_record(broken, fault == GARBLED ? garbled(sound->keys[i], i) : sound->keys[i], sound->classes[i]);
}

void break_map(map *broken, const map *sound, int fault)
{
    size_t q = fault == EMPTY ? 0 : sound->q;
    if (fault == NO_CLEAR) {
        leave_out(broken, sound, CLEAR);
        return;
    }
    begin_map(broken, sound->m);
    for (size_t i = 0; i < q; i++)
        if (is_tenth(i))
            add_tenth(broken, sound, i, fault);
        else
            add_record(broken, sound->keys[i], sound->classes[i]);
}

/* ---- A lake's day ---- */

const char *const day_names[DAYS] = {"no record", "scum drifted", "each tenth", "each second", "complete"};

/* What class it is today. */
static uint8_t repainted(uint8_t class)
{
    return class == CLEAR ? SCUM : class == SCUM ? CLEAR : LUTNIORAD_NOT_SEEN;
}

/* The last of each `of` records is repainted, in the map of the day and in what that shows; none where that is 0. */
static void repaint(map *today, map *shown, size_t of)
{
    for (size_t i = 0; of > 0 && i < shown->q; i++)
        if (i % of == of - 1) {
            shown->classes[i] = repainted(shown->classes[i]);
            add_record(today, shown->keys[i], shown->classes[i]);
        }
}

void make_day(map *today, map *shown, const map *baseline, int number)
{
    static const size_t of[DAYS] = {[TENTH] = 10, [SECOND] = 2};
    if (number == DRIFTED || number == COMPLETE) {
        make(today, baseline->m, number == DRIFTED ? change : lake_today);
        make(shown, baseline->m, lake_today);
        return;
    }
    begin_map(today, baseline->m);
    *shown = *baseline;
    repaint(today, shown, of[number]);
}
