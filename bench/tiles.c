/*
 * With tile = m a call does what it does without a tile, and is to take as many instructions. With small tiles there
 * are more blocks; how many, is counted here once more, by cutting blocks in four.
 */
#include "tiles.h"

#include <inttypes.h>
#include <stdio.h>

static map a;
static result with, without;

static double ratio(int64_t x, int64_t y)
{
    return (double)x / (double)y;
}

/* ---- The calls: without a tile they are made in the same way, so that nothing else is compared ---- */

static lutniorad_answer decompose_tiled(const map *on, rectangle at, uint32_t tile, size_t room, result *r)
{
    return lutniorad_decompose_tiled(on->m, tile, at.r0, at.c0, at.h, at.w, r->out, room);
}

static lutniorad_answer decompose(const map *on, rectangle at, uint32_t tile, size_t room, result *r)
{
    (void)tile;
    return lutniorad_decompose(on->m, at.r0, at.c0, at.h, at.w, r->out, room);
}

static lutniorad_answer open_tiled(const map *on, rectangle at, uint32_t tile, size_t room, result *r)
{
    return lutniorad_open_tiled(on->m, tile, on->keys, on->q, on->classes, on->q, at.r0, at.c0, at.h, at.w, r->border,
                                CELLS, r->out, room);
}

static lutniorad_answer open(const map *on, rectangle at, uint32_t tile, size_t room, result *r)
{
    (void)tile;
    return lutniorad_open(on->m, on->keys, on->q, on->classes, on->q, at.r0, at.c0, at.h, at.w, r->border, CELLS,
                          r->out, room);
}

static lutniorad_answer select_tiled(const map *on, rectangle at, uint32_t tile, size_t room, result *r)
{
    return lutniorad_select_tiled(on->m, tile, on->keys, on->q, on->classes, on->q, at.r0, at.c0, at.h, at.w, SCUM,
                                  r->border, CELLS, r->out, room);
}

static lutniorad_answer select(const map *on, rectangle at, uint32_t tile, size_t room, result *r)
{
    (void)tile;
    return lutniorad_select(on->m, on->keys, on->q, on->classes, on->q, at.r0, at.c0, at.h, at.w, SCUM, r->border,
                            CELLS, r->out, room);
}

typedef struct {
    int operation;
    direct_call *with, *without;
    uint32_t cells; /* that an opening or a key takes of out */
} tiled;

static const tiled all[] = {
    {DECOMPOSE, decompose_tiled, decompose, 1},
    {OPEN, open_tiled, open, 3},
    {SELECT, select_tiled, select, 1},
};
enum { TILED = sizeof all / sizeof *all };

/* ---- With tile = m ---- */

/* Wanted: at most so many times the call without a tile, in every cell of decomposing and opening. */
#define MOST_OF_WITHOUT 1.01

typedef struct {
    const cell *of;
    int64_t with, without;
    double times;
} pair;

static pair measure_whole_tile(const tiled *t, const cell *c)
{
    rectangle at = make_window(a.m, c->window);
    pair p = {c, 0, 0, 0};
    char name[LONGEST_NAME];
    name_cell(c, name);
    measure_direct(t->without, &a, at, a.m, ROOM, &without);
    measure_direct(t->with, &a, at, a.m, ROOM, &with);
    if (!same_answers(&with, &without))
        wrong("with tile = m there is another answer", name);
    p.with = with.instructions;
    p.without = without.instructions;
    p.times = ratio(p.with, p.without);
    return p;
}

/* Returns that with the greatest ratio. */
static pair print_whole_tiles(const tiled *t, const cell *cells, int n)
{
    pair worst = {NULL, 0, 0, 0};
    for (const cell *c = cells; c < cells + n; c++)
        if (c->operation == t->operation) {
            pair p;
            if (c->window == 0)
                make_map(&a, c->map);
            p = measure_whole_tile(t, c);
            printf("| %-9s | %-15s | %-6s | %8" PRId64 " | %8" PRId64 " | %6.3f%s | %+5" PRId64 " |\n",
                   operation_names[t->operation], map_name(c), window_name(c), p.with, p.without, p.times,
                   p.times > MOST_OF_WITHOUT ? "*" : " ", p.with - p.without);
            if (p.times > worst.times)
                worst = p;
        }
    return worst;
}

static void print_want_of_whole(const pair worst[TILED])
{
    printf("\nWanted with tile = m is at most %.2f times the call without, in every cell of decomposing and opening. "
           "The greatest:",
           MOST_OF_WITHOUT);
    for (int i = 0; i < TILED; i++) {
        char name[LONGEST_NAME];
        name_cell(worst[i].of, name);
        printf(" %s %.3f, at %s (%+" PRId64 ")", operation_names[all[i].operation], worst[i].times, name,
               worst[i].with - worst[i].without);
        if (all[i].operation == SELECT)
            printf(".\n");
        else
            printf(": %s;", worst[i].times <= MOST_OF_WITHOUT ? "met" : "not met");
    }
}

static void print_whole(const cell *cells, int n)
{
    pair worst[TILED];
    printf("\nWith a tile: tile = m, beside the same call without a tile, and how many instructions more that is. * "
           "marks what is over %.2f times.\n\n"
           "| tile = m  | map             | window |  library |  without |   ratio |  more |\n"
           "| :-------- | :-------------- | :----- | -------: | -------: | ------: | ----: |\n",
           MOST_OF_WITHOUT);
    for (int i = 0; i < TILED; i++)
        worst[i] = print_whole_tiles(&all[i], cells, n);
    print_want_of_whole(worst);
}

/* ---- Small tiles: how many blocks, openings and keys there must be ---- */

enum { TILE = 5 };

static block read_key(uint32_t key)
{
    return block_of(a.m, key, "with a tile");
}

/* May it be a block of the window, maximal or not? */
static bool fits(block b, rectangle at)
{
    int side = 1 << b.exponent;
    return b.exponent <= TILE && within(b.row, side, at.r0, at.h) && within(b.col, side, at.c0, at.w);
}

/* How many maximal blocks the window has in this one, unless it lies in a larger one that is maximal: then 1. */
static uint32_t count_parts(block b, rectangle at)
{
    int side = 1 << b.exponent, half = side / 2;
    uint32_t parts = 0;
    if (apart(b.row, side, at.r0, at.h) || apart(b.col, side, at.c0, at.w))
        return 0;
    if (fits(b, at))
        return 1;
    for (int i = 0; i < 4; i++) {
        block quarter = {b.row + i / 2 * half, b.col + i % 2 * half, b.exponent - 1};
        parts += count_parts(quarter, at);
    }
    return parts;
}

static bool lies_in_larger(block b, rectangle at)
{
    int side = 2 << b.exponent;
    block around = {b.row - b.row % side, b.col - b.col % side, b.exponent + 1};
    return fits(around, at);
}

/*
 * All maximal blocks are opened, but for those behind the first in one record; of the records of a class the parts are
 * listed.
 */
static uint32_t count_all(int operation, rectangle at)
{
    uint32_t blocks = count_parts(read_key(0), at), skipped = 0, keys = 0;
    for (size_t i = 0; i < a.q; i++) {
        block record = read_key(a.keys[i]);
        uint32_t parts = count_parts(record, at);
        if (parts > 0 && !lies_in_larger(record, at))
            skipped += parts - 1;
        if (a.classes[i] == SCUM)
            keys += parts;
    }
    return operation == DECOMPOSE ? blocks : operation == OPEN ? blocks - skipped : keys;
}

static void hold_tiled(const tiled *t, rectangle at, const char *where)
{
    int pixels = 0;
    if (with.answer.refusal != 0 || with.answer.first != count_all(t->operation, at))
        wrong("with a tile there are not as many blocks as there must be", where);
    for (uint32_t i = 0; i < with.answer.first; i++) {
        block b = read_key(with.out[i * t->cells]);
        if (!fits(b, at))
            wrong("a block is larger than the tile, or leaves the window", where);
        pixels += 1 << 2 * b.exponent;
    }
    if (t->operation == DECOMPOSE && pixels != at.h * at.w)
        wrong("with a tile the blocks are not the window", where);
}

/* ---- Small tiles: what they cost ---- */

static void print_times(int64_t x, int64_t of)
{
    if (of > 0)
        printf(" %5.2f |", ratio(x, of));
    else
        printf(" %5s |", "");
}

static void print_tiled(const tiled *t, int window)
{
    static result twice;
    rectangle at = make_window(a.m, window);
    measure_direct(t->without, &a, at, TILE, ROOM, &without);
    measure_direct(t->with, &a, at, TILE, ROOM, &with);
    hold_tiled(t, at, window_names[window]);
    measure_direct(t->with, &a, at, TILE, with.answer.first * t->cells, &twice);
    if (!same_answers(&twice, &with))
        wrong("two passes give another answer than one", window_names[window]);
    printf("| %-9s | %-6s | %8" PRId64 " | %8" PRId64 " |", operation_names[t->operation], window_names[window],
           with.instructions, without.instructions);
    print_times(with.instructions, without.instructions);
    printf(" %6" PRIu32 " | %7" PRIu32 " |", with.answer.first, without.answer.first);
    print_times(with.answer.first, without.answer.first);
    printf(" %10" PRId64 " |", twice.instructions);
    print_times(twice.instructions, with.instructions);
    printf("\n");
}

static void print_small(void)
{
    printf("\nOn the lake with tile = %d, no block larger than %d x %d pixels, beside the same call without a tile. "
           "Blocks: of opening the openings, of select the keys that are listed. Two passes: with just enough out "
           "cells, beside room for one pass.\n\n"
           "| tile = %d  | window |  library |  without | times | blocks | without | times | two passes | times |\n"
           "| :-------- | :----- | -------: | -------: | ----: | -----: | ------: | ----: | ---------: | ----: |\n",
           TILE, 1 << TILE, 1 << TILE, TILE);
    make_map(&a, LAKE);
    for (int i = 0; i < TILED; i++)
        for (int window = 0; window < WINDOWS; window++)
            print_tiled(&all[i], window);
}

void print_tiles(const cell *cells, int n)
{
    print_whole(cells, n);
    print_small();
}
