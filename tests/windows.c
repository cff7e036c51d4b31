#include "windows.h"

#include "many.h"
#include "months.h"
#include "overlay.h"
#include "questions.h"
#include "salvage.h"
#include "sparse.h"
#include "why.h"

#include <stdio.h>
#include <string.h>

/* The case at hand: a sound map, and one that need not be sound. */
static map sound, damaged;

/* ---- Group: windows written out ---- */

/* The window of the reference case. */
static const window REFERENCE_WINDOW = {0, 1, 3, 3};

enum { MOST_STATED = 12 };

static const struct {
    uint32_t m;
    window at;
    size_t n_out;
    lutniorad_answer answer;
    uint32_t keys[MOST_STATED];
} stated_blocks[] = {
    {2, {0, 1, 3, 3}, 6, {0, 0, 6, 0}, {7, 10, 9, 17, 21, 22}},
    {2, {0, 1, 3, 3}, 5, {8, 6, 0, 0}, {0}},
    {2, {0, 0, 4, 4}, 1, {0, 0, 1, 0}, {0}},
    {2, {0, 0, 4, 4}, 0, {8, 1, 0, 0}, {0}},
    {2, {2, 0, 2, 1}, 2, {0, 0, 2, 0}, {16, 18}},
    {2, {2, 0, 3, 1}, 2, {6, 0, 0, 0}, {0}},
    {2, {1, 2, 1, 1}, 1, {0, 0, 1, 0}, {13}},
    {2, {1, 1, 2, 2}, 4, {0, 0, 4, 0}, {9, 13, 17, 21}},
    {2, {0, 0, 4, 3}, 6, {0, 0, 6, 0}, {5, 11, 13, 15, 21, 23}},
    {8, {0, 255, 1, 1}, 1, {0, 0, 1, 0}, {97656 + 97656}}, /* (5^8 - 1)/4, and E(255), which is as much */
    {8, {255, 0, 1, 1}, 1, {0, 0, 1, 0}, {97656 + 2 * 97656}},
    {0, {0, 0, 1, 1}, 1, {0, 0, 1, 0}, {0}},
    {0, {0, 0, 1, 2}, 1, {6, 0, 0, 0}, {0}},
    {12, {0, 0, 4096, 4096}, 1, {0, 0, 1, 0}, {0}},
    {12, {4095, 4095, 1, 1}, 1, {0, 0, 1, 0}, {244140624}},
    {12, {2048, 2048, 2048, 2048}, 1, {0, 0, 1, 0}, {195312500}},
    {12, {0, 0, 4097, 1}, 1, {6, 0, 0, 0}, {0}},
    {12, {4095, 0, 2, 1}, 2, {6, 0, 0, 0}, {0}},
    {12, {65535, 0, 1, 1}, 1, {6, 0, 0, 0}, {0}},
    {13, {0, 0, 1, 1}, 1, {1, 0, 0, 0}, {0}},
    {13, {0, 0, 0, 0}, 0, {1, 0, 0, 0}, {0}},
};

static void stated_decomposition(size_t i)
{
    lutniorad_answer stated = stated_blocks[i].answer;
    require_stated(compare_decompose(stated_blocks[i].m, stated_blocks[i].at, stated_blocks[i].n_out), stated);
    require(memcmp(left(0), stated_blocks[i].keys, stated.first * sizeof *stated_blocks[i].keys) == 0,
            "other keys than those written out");
}

/* On the reference map; at m = 0 on the map of one pixel. All border cells have the same number in the end. */
static const struct {
    uint32_t m;
    window at;
    size_t n_border, n_out;
    lutniorad_answer answer;
    uint32_t openings[MOST_STATED];
    uint16_t border; /* 0 where it is not written */
} stated_openings[] = {
    {2, {0, 1, 3, 3}, 3, 12, {0, 0, 4, 7}, {7, 0, 1, 10, 1, 4, 17, 5, 1, 21, 6, 1}, 3},
    {2, {0, 1, 3, 3}, 2, 12, {7, 3, 0, 0}, {0}, 0},
    {2, {0, 1, 3, 3}, 3, 11, {8, 12, 0, 0}, {0}, 3},
    {2, {0, 1, 3, 3}, 2, 11, {7, 3, 0, 0}, {0}, 0},
    {2, {0, 0, 4, 4}, 4, 3, {0, 0, 1, 7}, {0, 0, 7}, 4},
    {2, {0, 0, 4, 4}, 4, 2, {8, 3, 0, 0}, {0}, 4},
    {2, {2, 0, 2, 1}, 1, 3, {0, 0, 1, 1}, {16, 5, 1}, 4},
    {2, {2, 0, 3, 1}, 1, 3, {6, 0, 0, 0}, {0}, 0},
    {2, {1, 1, 2, 2}, 2, 12, {0, 0, 4, 4}, {9, 0, 1, 13, 3, 1, 17, 5, 1, 21, 6, 1}, 3},
    {2, {0, 0, 2, 4}, 4, 6, {0, 0, 2, 5}, {5, 0, 1, 10, 1, 4}, 2},
    {2, {0, 1, 3, 0}, 3, 12, {6, 0, 0, 0}, {0}, 0},
    {2, {0, 1, 3, 0}, 0, 0, {6, 0, 0, 0}, {0}, 0},
    {2, {65535, 0, 1, 1}, 1, 3, {6, 0, 0, 0}, {0}, 0},
    {13, {0, 1, 3, 3}, 3, 12, {1, 0, 0, 0}, {0}, 0},
    {0, {0, 0, 1, 1}, 1, 3, {0, 0, 1, 1}, {0, 0, 1}, 1},
    {0, {0, 0, 1, 1}, 1, 2, {8, 3, 0, 0}, {0}, 1},
    {0, {0, 0, 1, 1}, 0, 3, {7, 1, 0, 0}, {0}, 0},
};

static void stated_opening(size_t i)
{
    make_stated_map(&sound, stated_openings[i].m);
    lutniorad_answer stated = stated_openings[i].answer;
    question open = {&OPEN, &sound, NO_TILE, stated_openings[i].at, NO_CLASS};
    require_stated(ask(open, stated_openings[i].n_border, stated_openings[i].n_out), stated);
    require(memcmp(left(3), stated_openings[i].openings, 3 * stated.first * sizeof(uint32_t)) == 0,
            "other openings than those written out");
    require_border(stated_openings[i].at, stated_openings[i].border);
}

/* As many records as a map may have, each a pixel, and one more. The window is record 107. */
static void stated_most_records(size_t i)
{
    make_map(&sound, 8, EVEN, most_cuts(8));
    question q = {questions[i], &sound, 3, {7, 9, 1, 1}, sound.classes[107]};
    require_numbers(ask_slices(q, 65537, 65537, 1, enough_for(q)), 2, 0, 0, 0);
    require_numbers(ask_slices(q, 65536, 65536, 1, enough_for(q)), 0, 0, 1, opens(q.operation));
}

void group_windows_written_out(void)
{
    for (size_t i = 0; i < COUNT(stated_blocks); i++)
        if (begin_case())
            stated_decomposition(i);
    for (size_t i = 0; i < COUNT(stated_openings); i++)
        if (begin_case())
            stated_opening(i);
    for (size_t i = 0; i < ANSWERS; i++)
        if (begin_case())
            stated_most_records(i);
}

/* ---- Group: small windows ---- */

/* How many cells a window needs is found with a slice that is long enough; where the window is refused, it is none. */
static void decompose_with_every_length(uint32_t m, window at)
{
    size_t n = compare_decompose(m, at, enough(at)).first;
    const size_t lengths[] = {0, too_short(n), n, n + 5};
    for (size_t i = 0; i < (n == 0 ? 1 : COUNT(lengths)); i++)
        compare_decompose(m, at, lengths[i]);
}

/* On a small map. */
static void open_every_window(void)
{
    for (size_t number = 0; number < n_small_windows(sound.m); number++) {
        question open = {&OPEN, &sound, NO_TILE, small_window(sound.m, number), NO_CLASS};
        ask_with_every_length(open);
    }
}

/* On so many maps, each some other one. */
static void try_on_some_maps(uint32_t m, window at, size_t maps)
{
    if (compare_decompose(m, at, 0).refusal != 8)
        return;
    for (size_t i = 0; i < maps; i++) {
        make_map(&sound, m, (shape)below(SHAPES), below(most_cuts(m) + 1));
        try_window(&sound, at, some_class(&sound));
    }
}

void group_small_windows(void)
{
    for (uint32_t m = 0; m <= 3; m++)
        for (size_t number = 0; number < n_small_windows(m); number++)
            if (begin_case())
                decompose_with_every_length(m, small_window(m, number));
    for_small_maps(&sound, open_every_window, 1);
    for (uint32_t m = 3; m <= 4; m++)
        for (size_t number = 0; number < n_small_windows(m); number++)
            if (begin_case())
                try_on_some_maps(m, small_window(m, number), m == 3 ? 8 : 1);
}

/* ---- Group: refusals of windows ---- */

/* What the reference window needs of the answer slice. */
static const need reference_needs[] = {
    {&OPEN, NO_TILE, NO_CLASS, 3, {0, 11, 12}},
    {&EXIST, NO_TILE, 1, 1, {0}},
    {&REPORT, NO_TILE, NO_CLASS, 3, {0, 255, 256}},
    {&SELECT, NO_TILE, 1, 3, {0, 3, 4}},
};

static void decompose_with_reasons_together(window at)
{
    for (uint32_t m = 0; m <= 13; m++)
        for (size_t n_out = 0; n_out <= 7; n_out++)
            compare_decompose(m, at, n_out);
    for (size_t i = 0; i < CHOSEN_MS; i++)
        compare_decompose(chosen_ms[i], at, 6);
}

void group_window_refusals(void)
{
    for (size_t i = 0; i < CHOSEN_WINDOWS; i++)
        if (begin_case()) {
            ask_with_reasons_together(chosen_windows[i], reference_needs, COUNT(reference_needs));
            decompose_with_reasons_together(chosen_windows[i]);
        }
}

/* ---- Group: lengths of borders and answers ---- */

static void every_border_and_answer(window at)
{
    static const uint8_t asked[] = {1, 2, 3, 0, 255};
    static const uint32_t tiles[] = {0, 1, 2, 1, 0};
    make_reference_map(&sound);
    for (size_t i = 0; i < QUESTIONS * COUNT(asked); i++) {
        question q = {questions[i % QUESTIONS], &sound, tiles[i / QUESTIONS], at, asked[i / QUESTIONS]};
        for (size_t n_border = 0; n_border <= at.w + (size_t)4; n_border++)
            for (size_t n_out = 0; n_out <= enough_for(q); n_out++)
                ask(q, n_border, n_out);
    }
    for (size_t n_out = 0; n_out <= enough(at); n_out++)
        compare_decompose(sound.m, at, n_out);
    for (uint32_t tile = 0; tile <= sound.m; tile++)
        for (size_t n_out = 0; n_out <= enough_tiled(tile, at); n_out++)
            compare_decompose_tiled(sound.m, tile, at, n_out);
}

void group_window_lengths(void)
{
    static const window windows[] = {{0, 1, 3, 3}, {0, 0, 4, 4}, {1, 1, 2, 2}, {2, 0, 2, 1}, {3, 0, 1, 4}};
    for (size_t i = 0; i < COUNT(windows); i++)
        if (begin_case())
            every_border_and_answer(windows[i]);
}

/* ---- Group: old contents ---- */

/* On a small map, whose windows have a maximal block each, or are refused by 6. */
static void old_contents_of_every_window(void)
{
    for (size_t number = 0; number < n_small_windows(sound.m); number++) {
        window at = small_window(sound.m, number);
        if (compare_decompose(sound.m, at, 0).refusal == 8)
            ask_over_old_contents(&sound, at, questions, QUESTIONS);
    }
}

void group_old_contents(void)
{
    for_small_maps(&sound, old_contents_of_every_window, PAINTS);
}

/* ---- Group: windows on damaged maps ---- */

static void ask_of_every_damage(void)
{
    for (size_t i = 0; i < sound.q; i++)
        for (size_t k = 0; k < n_damages * QUESTIONS; k++) {
            copy_map(&damaged, &sound);
            damage(&damaged, k / QUESTIONS, i);
            ask_inside_and_outside(questions[k % QUESTIONS], &damaged);
        }
}

void group_windows_on_damaged_maps(void)
{
    for_small_maps(&sound, ask_of_every_damage, 1);
}

/* ---- Group: vast borders and answers ---- */

/*
 * Of the reference window, whose border takes 3 cells, its openings 12, its totals 256 and its maximal blocks 6. Of the
 * class that is asked about, which is 1, there are 4 keys. Where there is a tile it is 0: then there are 9 maximal
 * blocks and 7 openings.
 */
static const struct {
    const operation *operation;
    size_t n_keys, n_classes, n_border, n_out;
    lutniorad_answer answer;
} vast_windows[] = {
    {&OPEN, 7, 7, VAST, 12, {0, 0, 4, 7}},
    {&OPEN, 7, 7, VAST + 2, 12, {0, 0, 4, 7}},
    {&OPEN, 7, 7, 3, VAST, {0, 0, 4, 7}},
    {&OPEN, 7, 7, 3, VAST + 11, {0, 0, 4, 7}},
    {&OPEN, 7, 7, VAST + 2, VAST + 11, {0, 0, 4, 7}},
    {&OPEN, 7, 7, VAST - 1, VAST - 1, {0, 0, 4, 7}},
    {&OPEN, 7, 7, 65536, 65536, {0, 0, 4, 7}},
    {&OPEN, 7, 7, 65538, 65547, {0, 0, 4, 7}},
    {&OPEN, 7, 7, VAST + 3, 11, {8, 12, 0, 0}},
    {&OPEN, 7, 7, 2, VAST + 12, {7, 3, 0, 0}},
    {&OPEN, VAST + 7, VAST + 7, 3, 12, {2, 0, 0, 0}},
    {&OPEN, VAST + 7, 7, 3, 12, {2, 0, 0, 0}},
    {&OPEN, 7, VAST + 7, 3, 12, {2, 0, 0, 0}},
    {&EXIST, 7, 7, VAST, 0, {0, 0, 1, 0}},
    {&EXIST, 7, 7, VAST + 2, 0, {0, 0, 1, 0}},
    {&EXIST, 7, 7, 65538, 0, {0, 0, 1, 0}},
    {&EXIST, VAST + 7, VAST + 7, 3, 0, {2, 0, 0, 0}},
    {&EXIST, VAST + 7, 7, 3, 0, {2, 0, 0, 0}},
    {&EXIST, 7, VAST + 7, 3, 0, {2, 0, 0, 0}},
    {&REPORT, 7, 7, VAST + 2, 256, {0, 0, 9, 0}},
    {&REPORT, 7, 7, 3, VAST, {0, 0, 9, 0}},
    {&REPORT, 7, 7, VAST + 2, VAST + 255, {0, 0, 9, 0}},
    {&REPORT, 7, 7, 65538, 65536 + 255, {0, 0, 9, 0}},
    {&REPORT, 7, 7, VAST + 3, 255, {8, 256, 0, 0}},
    {&REPORT, 7, 7, 2, VAST + 256, {7, 3, 0, 0}},
    {&REPORT, VAST + 7, VAST + 7, 3, 256, {2, 0, 0, 0}},
    {&REPORT, VAST + 7, 7, 3, 256, {2, 0, 0, 0}},
    {&REPORT, 7, VAST + 7, 3, 256, {2, 0, 0, 0}},
    {&SELECT, 7, 7, VAST + 2, 4, {0, 0, 4, 0}},
    {&SELECT, 7, 7, 3, VAST, {0, 0, 4, 0}},
    {&SELECT, 7, 7, VAST + 2, VAST + 3, {0, 0, 4, 0}},
    {&SELECT, 7, 7, 65538, 65539, {0, 0, 4, 0}},
    {&SELECT, 7, 7, VAST + 3, 3, {8, 4, 0, 0}},
    {&SELECT, 7, 7, 2, VAST + 4, {7, 3, 0, 0}},
    {&SELECT, VAST + 7, VAST + 7, 3, 4, {2, 0, 0, 0}},
    {&SELECT, VAST + 7, 7, 3, 4, {2, 0, 0, 0}},
    {&SELECT, 7, VAST + 7, 3, 4, {2, 0, 0, 0}},
    {&DECOMPOSE, 0, 0, 0, VAST, {0, 0, 6, 0}},
    {&DECOMPOSE, 0, 0, 0, VAST + 5, {0, 0, 6, 0}},
    {&DECOMPOSE, 0, 0, 0, VAST - 1, {0, 0, 6, 0}},
    {&DECOMPOSE, 0, 0, 0, 65536, {0, 0, 6, 0}},
    {&DECOMPOSE, 0, 0, 0, 65541, {0, 0, 6, 0}},
    {&OPEN_TILED, 7, 7, VAST + 2, 21, {0, 0, 7, 7}},
    {&OPEN_TILED, 7, 7, 3, VAST, {0, 0, 7, 7}},
    {&OPEN_TILED, 7, 7, VAST + 2, VAST + 20, {0, 0, 7, 7}},
    {&OPEN_TILED, 7, 7, 65538, 65536 + 20, {0, 0, 7, 7}},
    {&OPEN_TILED, 7, 7, VAST + 3, 20, {8, 21, 0, 0}},
    {&OPEN_TILED, 7, 7, 2, VAST + 21, {7, 3, 0, 0}},
    {&OPEN_TILED, VAST + 7, VAST + 7, 3, 21, {2, 0, 0, 0}},
    {&OPEN_TILED, VAST + 7, 7, 3, 21, {2, 0, 0, 0}},
    {&OPEN_TILED, 7, VAST + 7, 3, 21, {2, 0, 0, 0}},
    {&SELECT_TILED, 7, 7, VAST + 2, 4, {0, 0, 4, 0}},
    {&SELECT_TILED, 7, 7, 3, VAST, {0, 0, 4, 0}},
    {&SELECT_TILED, 7, 7, VAST + 2, VAST + 3, {0, 0, 4, 0}},
    {&SELECT_TILED, 7, 7, 65538, 65539, {0, 0, 4, 0}},
    {&SELECT_TILED, 7, 7, VAST + 3, 3, {8, 4, 0, 0}},
    {&SELECT_TILED, 7, 7, 2, VAST + 4, {7, 3, 0, 0}},
    {&SELECT_TILED, VAST + 7, VAST + 7, 3, 4, {2, 0, 0, 0}},
    {&SELECT_TILED, VAST + 7, 7, 3, 4, {2, 0, 0, 0}},
    {&SELECT_TILED, 7, VAST + 7, 3, 4, {2, 0, 0, 0}},
    {&DECOMPOSE_TILED, 0, 0, 0, VAST, {0, 0, 9, 0}},
    {&DECOMPOSE_TILED, 0, 0, 0, VAST + 8, {0, 0, 9, 0}},
    {&DECOMPOSE_TILED, 0, 0, 0, VAST - 1, {0, 0, 9, 0}},
    {&DECOMPOSE_TILED, 0, 0, 0, 65544, {0, 0, 9, 0}},
};

static void vast_window(size_t i)
{
    const size_t n_out = vast_windows[i].n_out;
    make_reference_map(&sound);
    question q = {vast_windows[i].operation, &sound, 0, REFERENCE_WINDOW, 1};
    lutniorad_answer answer =
        q.operation == &DECOMPOSE ? compare_decompose(sound.m, q.at, n_out)
        : q.operation == &DECOMPOSE_TILED
            ? compare_decompose_tiled(sound.m, q.tile, q.at, n_out)
            : ask_slices(q, vast_windows[i].n_keys, vast_windows[i].n_classes, vast_windows[i].n_border, n_out);
    require_stated(answer, vast_windows[i].answer);
}

void group_vast_windows(void)
{
    for (size_t i = 0; i < COUNT(vast_windows); i++)
        if (begin_case())
            vast_window(i);
}

/* ---- Group: large windows ---- */

/* On the map at hand, and some question with slices that are too short as well. */
static void large_window(window at)
{
    question q = some_question(questions[below(QUESTIONS)], &sound, at);
    try_window(&sound, at, some_class(&sound));
    size_t n = ask_too_short(q);
    ask(q, too_short(at.w), n);
}

void group_large_windows(void)
{
    for (shape how = DEEP; how < SHAPES; how++)
        for (size_t number = 0; number < THIN_WINDOWS; number++)
            for (uint32_t m = 8; m <= 12; m += 4)
                if (begin_case()) {
                    make_map(&sound, m, how, most_cuts(8));
                    large_window(thin_window(m, number));
                }
    for (shape how = DEEP; how < SHAPES; how++)
        for (size_t number = 0; number < WIDE_WINDOWS; number++)
            if (begin_case()) {
                make_map(&sound, 8, how, most_cuts(8));
                large_window(wide_window(8, number));
            }
    for (size_t number = 0; number < WIDE_WINDOWS; number++)
        if (begin_case()) {
            make_map_around(&sound, 12, wide_window(12, number), number % 2 == 0 ? 2 : 0);
            try_window(&sound, wide_window(12, number), some_class(&sound));
        }
    if (begin_case()) {
        make_map(&sound, 12, RAGGED, most_cuts(8));
        try_window(&sound, whole_picture(12), some_class(&sound));
    }
}

/* ---- Group: random windows ---- */

/* A window on the map at hand: on slices that are long enough, on some that may not be, and on the map damaged. */
static void try_window_at_random(window at)
{
    try_window(&sound, at, some_class(&sound));
    ask_at_random(some_question(questions[below(QUESTIONS)], &sound, at));
}

static void random_windows(void)
{
    make_random_map(&sound);
    for (size_t i = 0; i < WINDOWS_ON_MAPS; i++)
        try_window_at_random(random_window_on(&sound, i, (size_t)1 << 16));
}

/* Pictures that are small enough for many windows, some of which stick out. */
static void random_small_windows(void)
{
    uint32_t m = 3 + (uint32_t)below(3);
    make_map(&sound, m, (shape)below(SHAPES), below((most_cuts(m) >> below(8)) + 1));
    for (int i = 0; i < 16; i++) {
        window at = random_window(m, (size_t)1 << 2 * m);
        question q = some_question(questions[below(QUESTIONS)], &sound, at);
        try_window(&sound, at, some_class(&sound));
        size_t n = ask_in_full(q);
        q.at.h = (uint16_t)near_length(q.at.h);
        q.at.w = (uint16_t)near_length(q.at.w);
        size_t n_border = near_length(q.at.w);
        ask(q, n_border, near_length(n));
    }
}

void group_random_windows(void)
{
    for (int i = 0; i < 300; i++)
        if (begin_case())
            random_windows();
    for (int i = 0; i < 1000; i++)
        if (begin_case())
            random_small_windows();
}

/* ---- Group: the largest windows ---- */

void group_largest_windows(void)
{
    const window windows[] = {whole_picture(12), {0, 0, 4095, 4095}, {1, 1, 4095, 4095}, {1, 1, 4094, 4094}};
    for (size_t i = 0; i < COUNT(windows); i++)
        if (begin_case())
            compare_decompose(12, windows[i], enough(windows[i]));
}

/* ---- Group: the stack ---- */

/* What try_window does not call. */
static void try_more(window at)
{
    uint8_t asked = some_class(&sound);
    try_month(&sound, at);
    try_tile(&sound, some_tile(sound.m, at), at, &asked, 1);
    try_reasons(&sound, at);
    try_thinned(&sound, at);
    try_overlaid(&sound, at);
}

/* Every operation on the map at hand, and on some windows of it. */
static void call_everything(void)
{
    static uint8_t file[ROOM_FOR_FILE];
    size_t n = make_file(file, &sound);
    given keys = {sound.keys, sound.q}, classes = {sound.classes, sound.q};
    call check = {&CHECK, sound.m, NO_TILE, NO_WINDOW, NO_CLASS, {keys, classes}};
    call write = {&WRITE, sound.m, NO_TILE, NO_WINDOW, NO_CLASS, {keys, classes, {NULL, n}}};
    call read = {&READ, 0, NO_TILE, NO_WINDOW, NO_CLASS, {{file, n}, {NULL, sound.q}, {NULL, sound.q}}};
    lutniorad_answer checked = compare(check);
    compare_with(&SPARSE_CHECK, checked);
    lutniorad_answer written = compare(write);
    compare_with(&SPARSE_WRITE, written);
    lutniorad_answer taken = compare(read);
    compare_with(&SPARSE_READ, taken);
    require_numbers(checked, 0, 0, (uint32_t)sound.q, 0);
    require_numbers(written, 0, 0, (uint32_t)n, 0);
    require_numbers(taken, 0, 0, sound.m, (uint32_t)sound.q);
    for (size_t i = 0; i < THIN_WINDOWS; i++)
        try_window(&sound, thin_window(sound.m, i), some_class(&sound));
    for (int i = 0; i < 4; i++)
        try_window(&sound, random_window(sound.m, (size_t)1 << 16), some_class(&sound));
    for (size_t i = 0; i < THIN_WINDOWS; i += 2)
        try_more(thin_window(sound.m, i));
    for (int i = 0; i < 2; i++)
        try_more(random_window(sound.m, (size_t)1 << 16));
    try_many(&sound);
    try_salvage_of(&sound);
}

void group_stack(void)
{
    watch_stack();
    for (shape how = DEEP; how < SHAPES; how++)
        for (uint32_t m = 8; m <= 12; m += 4)
            if (begin_case()) {
                make_map(&sound, m, how, most_cuts(8));
                call_everything();
            }
    end_watch();
}
