#include "tiles.h"

#include "questions.h"

#include <string.h>

/* The case at hand: a sound map. */
static map sound;

/* The questions with a tile. */
static const operation *const tiled[] = {&OPEN_TILED, &SELECT_TILED};

/* ---- Group: tiles written out ---- */

/* On the reference map; at m = 0 on the map of one pixel, of class 1. */
static const struct {
    const operation *operation;
    uint32_t m, tile;
    window at;
    uint8_t of_class;
    size_t n_border, n_out;
    lutniorad_answer answer;
    uint32_t cells[21]; /* the keys, or the openings */
    uint16_t border;    /* every cell in the end, or 0 where it is not written */
} stated_tiles[] = {
    {&DECOMPOSE_TILED, 2, 0, {0, 1, 3, 3}, 0, 0, 9, {0, 0, 9, 0}, {7, 11, 12, 9, 13, 14, 17, 21, 22}, 0},
    {&DECOMPOSE_TILED, 2, 0, {0, 1, 3, 3}, 0, 0, 8, {8, 9, 0, 0}, {0}, 0},
    {&DECOMPOSE_TILED, 2, 1, {0, 1, 3, 3}, 0, 0, 6, {0, 0, 6, 0}, {7, 10, 9, 17, 21, 22}, 0},
    {&DECOMPOSE_TILED, 2, 2, {0, 1, 3, 3}, 0, 0, 6, {0, 0, 6, 0}, {7, 10, 9, 17, 21, 22}, 0},
    {&DECOMPOSE_TILED, 2, 3, {0, 1, 3, 3}, 0, 0, 6, {17, 0, 0, 0}, {0}, 0},
    {&DECOMPOSE_TILED, 2, 2, {0, 0, 4, 4}, 0, 0, 1, {0, 0, 1, 0}, {0}, 0},
    {&DECOMPOSE_TILED, 2, 1, {0, 0, 4, 4}, 0, 0, 4, {0, 0, 4, 0}, {5, 10, 15, 20}, 0},
    {&DECOMPOSE_TILED, 2, 1, {0, 0, 4, 4}, 0, 0, 3, {8, 4, 0, 0}, {0}, 0},
    {&DECOMPOSE_TILED, 2, 0, {0, 0, 4, 4}, 0, 0, 16, {0, 0, 16, 0},
     {6, 7, 11, 12, 8, 9, 13, 14, 16, 17, 21, 22, 18, 19, 23, 24}, 0},
    {&DECOMPOSE_TILED, 2, 0, {0, 0, 4, 4}, 0, 0, 15, {8, 16, 0, 0}, {0}, 0},
    {&DECOMPOSE_TILED, 2, UINT32_MAX, {0, 0, 4, 4}, 0, 0, 16, {17, 0, 0, 0}, {0}, 0},
    {&DECOMPOSE_TILED, 2, 3, {0, 0, 5, 4}, 0, 0, 0, {17, 0, 0, 0}, {0}, 0},
    {&DECOMPOSE_TILED, 2, 2, {0, 0, 5, 4}, 0, 0, 0, {6, 0, 0, 0}, {0}, 0},
    {&DECOMPOSE_TILED, 13, 14, {0, 0, 0, 0}, 0, 0, 0, {1, 0, 0, 0}, {0}, 0},
    {&DECOMPOSE_TILED, 13, 0, {0, 0, 1, 1}, 0, 0, 1, {1, 0, 0, 0}, {0}, 0},
    {&DECOMPOSE_TILED, 0, 0, {0, 0, 1, 1}, 0, 0, 1, {0, 0, 1, 0}, {0}, 0},
    {&DECOMPOSE_TILED, 0, 1, {0, 0, 1, 1}, 0, 0, 1, {17, 0, 0, 0}, {0}, 0},
    {&DECOMPOSE_TILED, 3, 2, {0, 0, 8, 4}, 0, 0, 2, {0, 0, 2, 0}, {25, 75}, 0},
    {&DECOMPOSE_TILED, 3, 1, {0, 0, 4, 5}, 0, 0, 8, {0, 0, 8, 0}, {30, 35, 56, 58, 40, 45, 66, 68}, 0},
    {&DECOMPOSE_TILED, 12, 11, {0, 0, 4096, 4096}, 0, 0, 4, {0, 0, 4, 0},
     {48828125, 97656250, 146484375, 195312500}, 0},
    {&DECOMPOSE_TILED, 12, 12, {0, 0, 4096, 4096}, 0, 0, 1, {0, 0, 1, 0}, {0}, 0},
    {&DECOMPOSE_TILED, 12, 13, {0, 0, 4096, 4096}, 0, 0, 1, {17, 0, 0, 0}, {0}, 0},
    {&OPEN_TILED, 2, 0, {0, 1, 3, 3}, 0, 3, 21, {0, 0, 7, 7},
     {7, 0, 1, 11, 1, 1, 12, 2, 1, 13, 3, 1, 14, 4, 1, 17, 5, 1, 21, 6, 1}, 3},
    {&OPEN_TILED, 2, 0, {0, 1, 3, 3}, 0, 3, 20, {8, 21, 0, 0}, {0}, 3},
    {&OPEN_TILED, 2, 0, {0, 1, 3, 3}, 0, 2, 20, {7, 3, 0, 0}, {0}, 0},
    {&OPEN_TILED, 2, 1, {0, 1, 3, 3}, 0, 3, 12, {0, 0, 4, 7}, {7, 0, 1, 10, 1, 4, 17, 5, 1, 21, 6, 1}, 3},
    {&OPEN_TILED, 2, 2, {0, 0, 4, 4}, 0, 4, 3, {0, 0, 1, 7}, {0, 0, 7}, 4},
    {&OPEN_TILED, 2, 1, {0, 0, 4, 4}, 0, 4, 12, {0, 0, 4, 7}, {5, 0, 1, 10, 1, 4, 15, 5, 1, 20, 6, 1}, 4},
    {&OPEN_TILED, 2, 1, {0, 0, 4, 4}, 0, 4, 11, {8, 12, 0, 0}, {0}, 4},
    {&OPEN_TILED, 2, 0, {0, 0, 4, 4}, 0, 4, 21, {0, 0, 7, 7},
     {6, 0, 1, 11, 1, 1, 12, 2, 1, 13, 3, 1, 14, 4, 1, 16, 5, 1, 21, 6, 1}, 4},
    {&OPEN_TILED, 2, 3, {0, 0, 4, 4}, 0, 4, 3, {17, 0, 0, 0}, {0}, 0},
    {&OPEN_TILED, 0, 0, {0, 0, 1, 1}, 0, 1, 3, {0, 0, 1, 1}, {0, 0, 1}, 1},
    {&OPEN_TILED, 0, 1, {0, 0, 1, 1}, 0, 1, 3, {17, 0, 0, 0}, {0}, 0},
    {&SELECT_TILED, 2, 0, {0, 1, 3, 3}, 1, 3, 4, {0, 0, 4, 0}, {7, 9, 14, 17}, 3},
    {&SELECT_TILED, 2, 0, {0, 1, 3, 3}, 1, 3, 3, {8, 4, 0, 0}, {0}, 3},
    {&SELECT_TILED, 2, 0, {0, 1, 3, 3}, 2, 3, 4, {0, 0, 4, 0}, {11, 12, 21, 22}, 3},
    {&SELECT_TILED, 2, 0, {0, 1, 3, 3}, 0, 3, 0, {0, 0, 0, 0}, {0}, 3},
    {&SELECT_TILED, 2, 1, {0, 1, 3, 3}, 1, 3, 4, {0, 0, 4, 0}, {7, 14, 9, 17}, 3},
    {&SELECT_TILED, 2, 2, {0, 0, 4, 4}, 1, 4, 3, {0, 0, 3, 0}, {5, 14, 15}, 4},
    {&SELECT_TILED, 2, 1, {0, 0, 4, 4}, 2, 4, 3, {0, 0, 3, 0}, {11, 12, 20}, 4},
    {&SELECT_TILED, 2, 0, {0, 0, 4, 4}, 1, 4, 9, {0, 0, 9, 0}, {6, 7, 8, 9, 14, 16, 17, 18, 19}, 4},
    {&SELECT_TILED, 2, 0, {0, 0, 4, 4}, 1, 4, 8, {8, 9, 0, 0}, {0}, 4},
    {&SELECT_TILED, 2, 0, {0, 0, 4, 4}, 1, 3, 8, {7, 4, 0, 0}, {0}, 0},
    {&SELECT_TILED, 2, 3, {0, 0, 4, 4}, 1, 4, 9, {17, 0, 0, 0}, {0}, 0},
    {&SELECT_TILED, 0, 0, {0, 0, 1, 1}, 1, 1, 1, {0, 0, 1, 0}, {0}, 1},
    {&SELECT_TILED, 0, 1, {0, 0, 1, 1}, 1, 1, 1, {17, 0, 0, 0}, {0}, 0},
};

static void stated_tile(size_t i)
{
    const operation *o = stated_tiles[i].operation;
    const bool cuts = o == &DECOMPOSE_TILED;
    const size_t n_out = stated_tiles[i].n_out, cells = (opens(o) ? 3 : 1) * (size_t)stated_tiles[i].answer.first;
    make_stated_map(&sound, stated_tiles[i].m);
    question q = {o, &sound, stated_tiles[i].tile, stated_tiles[i].at, stated_tiles[i].of_class};
    lutniorad_answer answer = cuts ? compare_decompose_tiled(sound.m, q.tile, q.at, n_out)
                                   : ask(q, stated_tiles[i].n_border, n_out);
    require_stated(answer, stated_tiles[i].answer);
    require(memcmp(left(cuts ? 0 : 3), stated_tiles[i].cells, cells * sizeof *stated_tiles[i].cells) == 0,
            "other cells than those written out");
    if (!cuts)
        require_border(q.at, stated_tiles[i].border);
}

/* On the reference map, whose slices may be cut, and whose keys name no blocks at m = 3: 17 stands between 1 and 2. */
static const struct {
    uint32_t m, tile;
    size_t n_keys, n_classes;
    window at;
    size_t n_border;
    uint32_t refusal, place;
} stated_orders[] = {
    {13, 0, 7, 7, {0, 1, 3, 3}, 3, 1, 0},
    {13, 13, 7, 7, {0, 1, 3, 3}, 3, 1, 0},
    {13, 14, 0, 1, {4, 4, 0, 0}, 0, 1, 0},
    {UINT32_MAX, 3, 7, 7, {0, 1, 3, 3}, 3, 1, 0},
    {2, 3, 7, 7, {0, 1, 3, 3}, 3, 17, 0},
    {2, 258, 7, 7, {0, 1, 3, 3}, 3, 17, 0},
    {2, 3, 0, 0, {0, 1, 3, 3}, 3, 17, 0},
    {2, 2, 0, 0, {0, 1, 3, 3}, 3, 2, 0},
    {2, 3, 7, 6, {0, 1, 3, 3}, 3, 17, 0},
    {2, 0, 7, 6, {0, 1, 3, 3}, 3, 2, 0},
    {3, 4, 7, 7, {0, 1, 3, 3}, 3, 17, 0},
    {3, 3, 7, 7, {0, 1, 3, 3}, 3, 3, 0},
    {2, 3, 6, 6, {0, 1, 3, 3}, 3, 17, 0},
    {2, 1, 6, 6, {0, 1, 3, 3}, 3, 5, 6},
    {2, 3, 7, 7, {0, 1, 3, 4}, 3, 17, 0},
    {2, 2, 7, 7, {0, 1, 3, 4}, 3, 6, 0},
    {2, 3, 7, 7, {0, 1, 0, 3}, 3, 17, 0},
    {2, 0, 7, 7, {0, 1, 0, 3}, 3, 6, 0},
    {2, 3, 7, 7, {0, 1, 3, 3}, 2, 17, 0},
    {2, 1, 7, 7, {0, 1, 3, 3}, 2, 7, 3},
    {2, 3, 0, 1, {65535, 0, 1, 1}, 0, 17, 0},
    {2, 2, 0, 1, {65535, 0, 1, 1}, 0, 2, 0},
};

static void stated_order(size_t i)
{
    make_reference_map(&sound);
    sound.m = stated_orders[i].m;
    for (size_t k = 0; k < COUNT(tiled); k++) {
        question q = {tiled[k], &sound, stated_orders[i].tile, stated_orders[i].at, 1};
        lutniorad_answer answer =
            ask_slices(q, stated_orders[i].n_keys, stated_orders[i].n_classes, stated_orders[i].n_border, 0);
        require_numbers(answer, stated_orders[i].refusal, stated_orders[i].place, 0, 0);
    }
}

void group_tiles_written_out(void)
{
    for (size_t i = 0; i < COUNT(stated_tiles); i++)
        if (begin_case())
            stated_tile(i);
    for (size_t i = 0; i < COUNT(stated_orders); i++)
        if (begin_case())
            stated_order(i);
}

/* ---- Group: small tiles ---- */

/* Tiles that no small picture has. In a part of their bits, or where a shift by them wraps, some look like others. */
static const uint32_t far_tiles[] = {13, 32, 33, 64, 255, 256, 257, 65536, 65537, 1u << 31, (1u << 31) + 1, UINT32_MAX};

/* How many tiles to try, each by its number: all that the picture has, the next one, and those far off. */
static size_t n_tiles(uint32_t m)
{
    return m + 2 + COUNT(far_tiles);
}

static uint32_t nth_tile(uint32_t m, size_t number)
{
    return number <= m + 1 ? (uint32_t)number : far_tiles[number - m - 2];
}

/* Empty, too short by one, just long enough and longer; as without a tile; and about what is always enough. */
static void decompose_with_every_length(uint32_t m, uint32_t tile, window at)
{
    const size_t most = enough_tiled(tile, at), n = compare_decompose_tiled(m, tile, at, most).first;
    const size_t lengths[] = {0, too_short(n), n, n + 5, enough(at), most - 3, most - 2, most - 1, most + 1};
    for (size_t i = 0; i < (n == 0 ? 1 : COUNT(lengths)); i++)
        compare_decompose_tiled(m, tile, at, lengths[i]);
}

static void decompose_with_every_tile(uint32_t m, window at)
{
    for (size_t number = 0; number < n_tiles(m); number++)
        decompose_with_every_length(m, nth_tile(m, number), at);
}

/* A question that is answered, on answer slices about what is always enough. */
static void ask_about_enough(question q)
{
    const size_t most = enough_for(q);
    const size_t lengths[] = {3 * q.map->q, enough(q.at), most - 3, most - 2, most - 1, most + 1};
    for (size_t i = 0; i < COUNT(lengths); i++)
        ask(q, q.at.w, lengths[i]);
}

/* Open, and select of some class. False where they are refused for more than their room. */
static bool ask_with_tile(uint32_t tile, window at)
{
    question open = {&OPEN_TILED, &sound, tile, at, NO_CLASS};
    question select = {&SELECT_TILED, &sound, tile, at, some_class(&sound)};
    ask_with_every_length(open);
    ask_with_every_length(select);
    if (ask(open, at.w, 0).refusal != LUTNIORAD_SHORT_ROOM)
        return false;
    ask_about_enough(open);
    ask_about_enough(select);
    return true;
}

/* On a small map, painted in few classes. */
static void ask_with_every_tile(void)
{
    static const uint8_t asked[] = {0, 1, 2, 255};
    paint(&sound, FEW);
    for (size_t number = 0; number < n_small_windows(sound.m); number++) {
        window at = small_window(sound.m, number);
        for (uint32_t tile = 0; tile <= sound.m + 1; tile++)
            if (ask_with_tile(tile, at))
                try_tile(&sound, tile, at, asked, COUNT(asked));
    }
}

/* On some map of m = 3, with every tile that it has. */
static void try_every_tile(window at)
{
    make_map(&sound, 3, (shape)below(SHAPES), below(most_cuts(3) + 1));
    for (uint32_t tile = 0; tile <= 3; tile++) {
        const uint8_t asked = some_class(&sound);
        try_tile(&sound, tile, at, &asked, 1);
    }
}

void group_small_tiles(void)
{
    for (uint32_t m = 0; m <= 3; m++)
        for (size_t number = 0; number < n_small_windows(m); number++)
            if (begin_case())
                decompose_with_every_tile(m, small_window(m, number));
    for_small_maps(&sound, ask_with_every_tile, 1);
    for (size_t number = 0; number < n_small_windows(3); number++)
        if (begin_case())
            try_every_tile(small_window(3, number));
}

/* ---- Group: refusals of tiles ---- */

/* Of m = 2, the tiles that it has, the next one, and some that look like a right one. */
static const need needs_with_tiles[] = {
    {&OPEN_TILED, 0, NO_CLASS, 3, {0, 20, 21}}, {&OPEN_TILED, 1, NO_CLASS, 3, {0, 11, 12}},
    {&OPEN_TILED, 2, NO_CLASS, 3, {0, 11, 12}}, {&OPEN_TILED, 3, NO_CLASS, 2, {0, 21}},
    {&OPEN_TILED, 258, NO_CLASS, 2, {0, 21}},   {&OPEN_TILED, UINT32_MAX, NO_CLASS, 2, {0, 21}},
    {&SELECT_TILED, 0, 1, 3, {0, 3, 4}},        {&SELECT_TILED, 2, 1, 3, {0, 3, 4}},
    {&SELECT_TILED, 3, 1, 2, {0, 4}},           {&SELECT_TILED, 13, 1, 2, {0, 4}},
    {&SELECT_TILED, 1u << 31, 1, 2, {0, 4}},
};

static void decompose_with_tiles_and_reasons(window at)
{
    static const uint32_t tiles[] = {0, 1, 2, 3, 12, 13, 14, 64, 256, 258, 65538, UINT32_MAX};
    for (size_t i = 0; i < CHOSEN_MS * COUNT(tiles); i++)
        for (size_t n_out = 0; n_out <= 10; n_out += n_out == 0 ? 5 : 1)
            compare_decompose_tiled(chosen_ms[i % CHOSEN_MS], tiles[i / CHOSEN_MS], at, n_out);
}

void group_tile_refusals(void)
{
    for (size_t i = 0; i < CHOSEN_WINDOWS; i++)
        if (begin_case()) {
            ask_with_reasons_together(chosen_windows[i], needs_with_tiles, COUNT(needs_with_tiles));
            decompose_with_tiles_and_reasons(chosen_windows[i]);
        }
}

/* ---- Group: many tiles ---- */

/* The whole picture, all of it but its edges, and the like: there are more such tiles than 4(w + h). */
static void many_tiles(uint32_t m, uint32_t tile, size_t number)
{
    const window at = wide_window(m, number);
    decompose_with_every_length(m, tile, at);
    for (shape how = DEEP; how < SHAPES; how++) {
        make_map(&sound, m, how, how == DEEP ? 0 : most_cuts(m - 1));
        ask_with_tile(tile, at);
    }
}

/* The pixels of a class, each a record, are selected whatever the tile is: they are more than the blocks may be. */
static void many_records(uint32_t m)
{
    make_map(&sound, m, EVEN, most_cuts(m));
    paint(&sound, ALL_0);
    for (uint32_t tile = 0; tile <= m; tile++) {
        question select = {&SELECT_TILED, &sound, tile, whole_picture(m), 0};
        ask_with_every_length(select);
        ask_about_enough(select);
    }
}

/* So large that some lengths must do. One record is selected by all blocks, and larger ones than a tile are opened. */
static void many_tiles_of_large_picture(uint32_t m, uint32_t tile, size_t number)
{
    const window at = wide_window(m, number);
    decompose_with_every_length(m, tile, at);
    make_map(&sound, m, EVEN, 0);
    question select = {&SELECT_TILED, &sound, tile, at, sound.classes[0]};
    ask(select, at.w, ask_too_short(select));
    make_map(&sound, m, EVEN, most_cuts(7));
    question open = {&OPEN_TILED, &sound, tile, at, NO_CLASS};
    ask(open, at.w, ask_too_short(open));
}

void group_many_tiles(void)
{
    for (uint32_t m = 4; m <= 8; m += 2)
        for (size_t number = 0; number < WIDE_WINDOWS; number++)
            if (begin_case())
                many_tiles(m, m / 2 - 2, number);
    for (uint32_t m = 10; m <= 12; m += 2)
        for (size_t number = 0; number < 2; number++)
            if (begin_case())
                many_tiles_of_large_picture(m, m / 2 - 2, number);
    for (uint32_t m = 4; m <= 6; m++)
        if (begin_case())
            many_records(m);
}

/* ---- Group: random tiles ---- */

/* A window on the map at hand, with some tile, and with the tile m. */
static void try_tile_at_random(window at)
{
    const uint8_t asked[] = {some_class(&sound), some_class(&sound)};
    question q = {tiled[below(COUNT(tiled))], &sound, some_tile(sound.m, at), at, asked[0]};
    try_tile(&sound, q.tile, at, asked, COUNT(asked));
    ask_at_random(q);
    q.tile = sound.m;
    ask_at_random(q);
}

static void random_tiles(void)
{
    make_random_map(&sound);
    for (size_t i = 0; i < WINDOWS_ON_MAPS; i++)
        try_tile_at_random(random_window_on(&sound, i, (size_t)1 << 16));
}

static void random_small_tiles(void)
{
    uint32_t m = 3 + (uint32_t)below(3);
    make_map(&sound, m, (shape)below(SHAPES), below((most_cuts(m) >> below(8)) + 1));
    for (int i = 0; i < 8; i++)
        try_tile_at_random(random_window(m, (size_t)1 << 2 * m));
}

void group_random_tiles(void)
{
    for (int i = 0; i < 300; i++)
        if (begin_case())
            random_tiles();
    for (int i = 0; i < 1000; i++)
        if (begin_case())
            random_small_tiles();
}
