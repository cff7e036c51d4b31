#include "why.h"

#include "questions.h"

#include <string.h>

/* The case at hand: a sound map. */
static map sound;

/* The questions for a reason. */
static const operation *const both[] = {&WHY_RECORD, &WHY_BLOCK};

/* About a record or a block of the map at hand, on slices that are long enough. */
static void ask_why(const operation *o, window at, uint32_t about)
{
    question q = {o, &sound, NO_TILE, at, about};
    ask_in_full(q);
}

void try_reasons(const map *a, window at)
{
    for (size_t i = 0; i < 3 * COUNT(both); i++)
        ask_in_full(some_question(both[i % COUNT(both)], a, at));
}

/* ---- Group: reasons written out ---- */

/*
 * On the reference map, whose slices may be cut, with another m if it is not 2; at m = 0 on the map of one pixel. The
 * window 0 1 3 3 has the blocks 7, 10, 9, 17, 21, 22 and the openings 7 0 1, 10 1 4, 17 5 1, 21 6 1.
 */
static const struct {
    const operation *operation;
    uint32_t m;
    size_t n_keys, n_classes;
    window at;
    uint32_t about;
    size_t n_border;
    lutniorad_reason reason;
} stated_reasons[] = {
    {&WHY_RECORD, 2, 7, 7, {0, 1, 3, 3}, 0, 3, {0, 0, 1, 0, 0}},
    {&WHY_RECORD, 2, 7, 7, {0, 1, 3, 3}, 1, 3, {0, 0, 1, 1, 1}},
    {&WHY_RECORD, 2, 7, 7, {0, 1, 3, 3}, 2, 3, {0, 0, 1, 2, 1}},
    {&WHY_RECORD, 2, 7, 7, {0, 1, 3, 3}, 3, 3, {0, 0, 1, 3, 1}},
    {&WHY_RECORD, 2, 7, 7, {0, 1, 3, 3}, 4, 4, {0, 0, 1, 4, 1}},
    {&WHY_RECORD, 2, 7, 7, {0, 1, 3, 3}, 5, 3, {0, 0, 1, 5, 2}},
    {&WHY_RECORD, 2, 7, 7, {0, 1, 3, 3}, 6, 3, {0, 0, 1, 6, 3}},
    {&WHY_RECORD, 2, 7, 7, {0, 1, 3, 3}, 7, 3, {19, 0, 0, 0, 0}},
    {&WHY_RECORD, 2, 7, 7, {0, 1, 3, 3}, 8, 3, {19, 0, 0, 0, 0}},
    {&WHY_RECORD, 2, 7, 7, {0, 1, 3, 3}, 256, 3, {19, 0, 0, 0, 0}}, /* record 0, in a part of its bits */
    {&WHY_RECORD, 2, 7, 7, {0, 1, 3, 3}, 65541, 3, {19, 0, 0, 0, 0}},
    {&WHY_RECORD, 2, 7, 7, {0, 1, 3, 3}, (1u << 31) + 5, 3, {19, 0, 0, 0, 0}},
    {&WHY_RECORD, 2, 7, 7, {0, 1, 3, 3}, UINT32_MAX, 3, {19, 0, 0, 0, 0}},
    {&WHY_RECORD, 2, 7, 7, {2, 2, 1, 1}, 0, 1, {0, 0, 2, 0, 0}}, /* north, and west */
    {&WHY_RECORD, 2, 7, 7, {2, 2, 1, 1}, 1, 1, {0, 0, 2, 1, 0}},
    {&WHY_RECORD, 2, 7, 7, {2, 2, 1, 1}, 2, 1, {0, 0, 2, 2, 0}}, /* north, and east */
    {&WHY_RECORD, 2, 7, 7, {2, 2, 1, 1}, 3, 1, {0, 0, 2, 3, 0}},
    {&WHY_RECORD, 2, 7, 7, {2, 2, 1, 1}, 4, 1, {0, 0, 2, 4, 0}},
    {&WHY_RECORD, 2, 7, 7, {2, 2, 1, 1}, 5, 1, {0, 0, 4, 5, 0}},
    {&WHY_RECORD, 2, 7, 7, {2, 2, 1, 1}, 6, 1, {0, 0, 1, 6, 0}},
    {&WHY_RECORD, 2, 7, 7, {1, 2, 1, 1}, 0, 1, {0, 0, 4, 0, 0}},
    {&WHY_RECORD, 2, 7, 7, {1, 2, 1, 1}, 1, 1, {0, 0, 2, 1, 0}},
    {&WHY_RECORD, 2, 7, 7, {1, 2, 1, 1}, 2, 1, {0, 0, 2, 2, 0}}, /* north, and east */
    {&WHY_RECORD, 2, 7, 7, {1, 2, 1, 1}, 3, 1, {0, 0, 1, 3, 0}},
    {&WHY_RECORD, 2, 7, 7, {1, 2, 1, 1}, 4, 1, {0, 0, 5, 4, 0}},
    {&WHY_RECORD, 2, 7, 7, {1, 2, 1, 1}, 5, 1, {0, 0, 3, 5, 0}}, /* south, and west */
    {&WHY_RECORD, 2, 7, 7, {1, 2, 1, 1}, 6, 1, {0, 0, 3, 6, 0}},
    {&WHY_RECORD, 2, 7, 7, {0, 0, 1, 2}, 1, 2, {0, 0, 5, 1, 0}},
    {&WHY_RECORD, 2, 7, 7, {0, 0, 1, 2}, 3, 2, {0, 0, 3, 3, 0}}, /* south, and east */
    {&WHY_RECORD, 2, 7, 7, {0, 0, 2, 2}, 3, 2, {0, 0, 5, 3, 0}},
    {&WHY_RECORD, 2, 7, 7, {0, 0, 2, 3}, 5, 3, {0, 0, 3, 5, 0}},
    {&WHY_RECORD, 2, 7, 7, {0, 2, 4, 2}, 5, 2, {0, 0, 4, 5, 0}},
    {&WHY_RECORD, 2, 7, 7, {0, 0, 4, 4}, 6, 4, {0, 0, 1, 6, 0}},
    {&WHY_BLOCK, 2, 7, 7, {0, 1, 3, 3}, 7, 3, {0, 0, 6, 0, 0}},
    {&WHY_BLOCK, 2, 7, 7, {0, 1, 3, 3}, 10, 3, {0, 0, 6, 0, 1}},
    {&WHY_BLOCK, 2, 7, 7, {0, 1, 3, 3}, 9, 3, {0, 0, 7, 0, 0}},
    {&WHY_BLOCK, 2, 7, 7, {0, 1, 3, 3}, 17, 4, {0, 0, 6, 0, 2}},
    {&WHY_BLOCK, 2, 7, 7, {0, 1, 3, 3}, 21, 3, {0, 0, 6, 0, 3}},
    {&WHY_BLOCK, 2, 7, 7, {0, 1, 3, 3}, 22, 3, {0, 0, 7, 6, 3}},
    {&WHY_BLOCK, 2, 7, 7, {0, 1, 3, 3}, 263, 3, {22, 0, 0, 0, 0}}, /* block 7, in a part of its bits */
    {&WHY_BLOCK, 2, 7, 7, {0, 1, 3, 3}, 65543, 3, {22, 0, 0, 0, 0}},
    {&WHY_BLOCK, 2, 7, 7, {0, 1, 3, 3}, (1u << 31) + 7, 3, {22, 0, 0, 0, 0}},
    {&WHY_BLOCK, 2, 7, 7, {0, 1, 3, 3}, UINT32_MAX, 3, {22, 0, 0, 0, 0}},
    {&WHY_BLOCK, 2, 7, 7, {0, 0, 4, 4}, 0, 4, {0, 0, 6, 0, 0}},
    {&WHY_BLOCK, 2, 7, 7, {0, 0, 4, 4}, 5, 4, {22, 0, 0, 0, 0}},
    {&WHY_BLOCK, 2, 7, 7, {2, 0, 2, 1}, 16, 1, {0, 0, 6, 0, 0}},
    {&WHY_BLOCK, 2, 7, 7, {2, 0, 2, 1}, 18, 1, {0, 0, 7, 5, 0}},
    {&WHY_BLOCK, 2, 7, 7, {2, 0, 2, 1}, 15, 1, {22, 0, 0, 0, 0}}, /* larger than the window */
    {&WHY_RECORD, 0, 1, 1, {0, 0, 1, 1}, 0, 1, {0, 0, 1, 0, 0}},
    {&WHY_RECORD, 0, 1, 1, {0, 0, 1, 1}, 1, 1, {19, 0, 0, 0, 0}},
    {&WHY_RECORD, 0, 1, 1, {0, 0, 1, 1}, 0, 0, {7, 1, 0, 0, 0}},
    {&WHY_BLOCK, 0, 1, 1, {0, 0, 1, 1}, 0, 1, {0, 0, 6, 0, 0}},
    {&WHY_BLOCK, 0, 1, 1, {0, 0, 1, 1}, 1, 1, {22, 0, 0, 0, 0}},
    {&WHY_BLOCK, 0, 1, 1, {0, 0, 1, 1}, 0, 0, {7, 1, 0, 0, 0}},
    {&WHY_RECORD, 13, 0, 1, {0, 1, 3, 4}, 7, 2, {1, 0, 0, 0, 0}}, /* each reason of refusal with all that are later */
    {&WHY_RECORD, 3, 7, 6, {0, 1, 3, 4}, 7, 2, {2, 0, 0, 0, 0}},
    {&WHY_RECORD, 3, 7, 7, {0, 1, 3, 9}, 7, 2, {3, 0, 0, 0, 0}},
    {&WHY_RECORD, 2, 6, 6, {0, 1, 3, 4}, 7, 2, {5, 6, 0, 0, 0}},
    {&WHY_RECORD, 2, 7, 7, {0, 1, 3, 4}, 7, 2, {6, 0, 0, 0, 0}},
    {&WHY_RECORD, 2, 7, 7, {0, 1, 3, 3}, 7, 2, {7, 3, 0, 0, 0}},
    {&WHY_RECORD, 2, 7, 7, {0, 1, 3, 3}, 6, 2, {7, 3, 0, 0, 0}},
    {&WHY_BLOCK, 13, 0, 1, {0, 1, 3, 4}, 5, 2, {1, 0, 0, 0, 0}},
    {&WHY_BLOCK, 3, 7, 6, {0, 1, 3, 4}, 5, 2, {2, 0, 0, 0, 0}},
    {&WHY_BLOCK, 3, 7, 7, {0, 1, 3, 9}, 5, 2, {3, 0, 0, 0, 0}},
    {&WHY_BLOCK, 2, 6, 6, {0, 1, 3, 4}, 5, 2, {5, 6, 0, 0, 0}},
    {&WHY_BLOCK, 2, 7, 7, {0, 1, 3, 4}, 5, 2, {6, 0, 0, 0, 0}},
    {&WHY_BLOCK, 2, 7, 7, {0, 1, 3, 3}, 5, 2, {7, 3, 0, 0, 0}},
    {&WHY_BLOCK, 2, 7, 7, {0, 1, 3, 3}, 7, 2, {7, 3, 0, 0, 0}},
    {&WHY_RECORD, 2, 7, 7, {0, 1, 3, 3}, 5, VAST, {0, 0, 1, 5, 2}},
    {&WHY_RECORD, 2, 7, 7, {0, 1, 3, 3}, 5, VAST + 2, {0, 0, 1, 5, 2}},
    {&WHY_RECORD, 2, 7, 7, {0, 1, 3, 3}, 5, 65538, {0, 0, 1, 5, 2}},
    {&WHY_RECORD, 2, 7, 7, {0, 1, 3, 3}, 7, VAST + 2, {19, 0, 0, 0, 0}},
    {&WHY_RECORD, 2, VAST + 7, VAST + 7, {0, 1, 3, 3}, 5, 3, {2, 0, 0, 0, 0}},
    {&WHY_RECORD, 2, VAST + 7, 7, {0, 1, 3, 3}, 5, 3, {2, 0, 0, 0, 0}},
    {&WHY_RECORD, 2, 7, VAST + 7, {0, 1, 3, 3}, 5, 3, {2, 0, 0, 0, 0}},
    {&WHY_BLOCK, 2, 7, 7, {0, 1, 3, 3}, 22, VAST, {0, 0, 7, 6, 3}},
    {&WHY_BLOCK, 2, 7, 7, {0, 1, 3, 3}, 22, VAST + 2, {0, 0, 7, 6, 3}},
    {&WHY_BLOCK, 2, 7, 7, {0, 1, 3, 3}, 22, 65538, {0, 0, 7, 6, 3}},
    {&WHY_BLOCK, 2, 7, 7, {0, 1, 3, 3}, 5, VAST + 2, {22, 0, 0, 0, 0}},
    {&WHY_BLOCK, 2, VAST + 7, VAST + 7, {0, 1, 3, 3}, 22, 3, {2, 0, 0, 0, 0}},
    {&WHY_BLOCK, 2, VAST + 7, 7, {0, 1, 3, 3}, 22, 3, {2, 0, 0, 0, 0}},
    {&WHY_BLOCK, 2, 7, VAST + 7, {0, 1, 3, 3}, 22, 3, {2, 0, 0, 0, 0}},
};

static void stated_reason(size_t i)
{
    const window at = stated_reasons[i].at;
    make_stated_map(&sound, stated_reasons[i].m);
    question q = {stated_reasons[i].operation, &sound, NO_TILE, at, stated_reasons[i].about};
    ask_slices(q, stated_reasons[i].n_keys, stated_reasons[i].n_classes, stated_reasons[i].n_border, 0);
    require_reason(stated_reasons[i].reason);
    require_border(at, stated_reasons[i].reason.refusal == 0 ? (uint16_t)(at.r0 + at.h) : 0);
}

/* Of the window 0 1 3 3 every other number up to 300: of smaller blocks, of larger ones, of some outside, of none. */
static void stated_not_maximal(void)
{
    static const uint32_t maximal[] = {7, 9, 10, 17, 21, 22};
    static const window at = {0, 1, 3, 3};
    static const lutniorad_reason not_maximal = {22, 0, 0, 0, 0};
    size_t next = 0;
    make_reference_map(&sound);
    for (uint32_t key = 0; key <= 300; key++)
        if (next < COUNT(maximal) && key == maximal[next]) {
            next++;
        } else {
            ask_why(&WHY_BLOCK, at, key);
            require_reason(not_maximal);
        }
}

/*
 * On the largest picture, m = 12, of one record, and on the longest map, whose records are the pixels of m = 8. In the
 * last row of either the pixels are the blocks.
 */
static const struct {
    const operation *operation;
    uint32_t m;
    window at;
    uint32_t about;
    size_t n_border;
    lutniorad_reason reason;
} stated_largest[] = {
    {&WHY_RECORD, 12, {0, 0, 4096, 4096}, 0, 4096, {0, 0, 1, 0, 0}},
    {&WHY_RECORD, 12, {0, 0, 4096, 4096}, 1, 4096, {19, 0, 0, 0, 0}},
    {&WHY_RECORD, 12, {0, 0, 4096, 4096}, 0, 4095, {7, 4096, 0, 0, 0}},
    {&WHY_BLOCK, 12, {0, 0, 4096, 4096}, 0, 4096, {0, 0, 6, 0, 0}},
    {&WHY_BLOCK, 12, {0, 0, 4096, 4096}, 48828125, 4096, {22, 0, 0, 0, 0}},
    {&WHY_BLOCK, 12, {0, 0, 4096, 4096}, 244140625, 4096, {22, 0, 0, 0, 0}}, /* 5^12 */
    {&WHY_BLOCK, 12, {4095, 0, 1, 4096}, 183105468, 4096, {0, 0, 6, 0, 0}},  /* twelve digits 3 */
    {&WHY_BLOCK, 12, {4095, 0, 1, 4096}, 427246093, 4096, {22, 0, 0, 0, 0}}, /* the same behind a 1 */
    {&WHY_BLOCK, 12, {4095, 0, 1, 4096}, 244140624, 4096, {0, 0, 7, 0, 0}},  /* twelve digits 4 */
    {&WHY_BLOCK, 12, {4095, 0, 1, 4096}, 244140624, 4095, {7, 4096, 0, 0, 0}},
    {&WHY_RECORD, 8, {7, 9, 1, 1}, 107, 1, {0, 0, 1, 107, 0}},
    {&WHY_RECORD, 8, {7, 9, 1, 1}, 0, 1, {0, 0, 2, 0, 0}},
    {&WHY_RECORD, 8, {7, 9, 1, 1}, 65535, 1, {0, 0, 3, 65535, 0}},
    {&WHY_RECORD, 8, {7, 9, 1, 1}, 65536, 1, {19, 0, 0, 0, 0}},
    {&WHY_RECORD, 8, {255, 0, 1, 256}, 65535, 256, {0, 0, 1, 65535, 255}},
    {&WHY_RECORD, 8, {0, 0, 256, 256}, 65535, 256, {0, 0, 1, 65535, 0}},
    {&WHY_BLOCK, 8, {255, 0, 1, 256}, 390624, 256, {0, 0, 6, 0, 255}}, /* eight digits 4 */
    {&WHY_BLOCK, 8, {255, 0, 1, 256}, 390625, 256, {22, 0, 0, 0, 0}},
};

/* One record more than the longest map has is too many. */
static void stated_largest_map(size_t i)
{
    static const lutniorad_reason too_many = {2, 0, 0, 0, 0};
    const uint32_t m = stated_largest[i].m;
    make_map(&sound, m, EVEN, m == 8 ? most_cuts(8) : 0);
    question q = {stated_largest[i].operation, &sound, NO_TILE, stated_largest[i].at, stated_largest[i].about};
    ask(q, stated_largest[i].n_border, 0);
    require_reason(stated_largest[i].reason);
    if (m == 8) {
        ask_slices(q, sound.q + 1, sound.q + 1, stated_largest[i].n_border, 0);
        require_reason(too_many);
    }
}

void group_reasons_written_out(void)
{
    for (size_t i = 0; i < COUNT(stated_reasons); i++)
        if (begin_case())
            stated_reason(i);
    if (begin_case())
        stated_not_maximal();
    for (size_t i = 0; i < COUNT(stated_largest); i++)
        if (begin_case())
            stated_largest_map(i);
}

/* ---- Group: small reasons ---- */

/* Numbers that no small map has. In a part of their bits some look like others. */
static const uint32_t far_numbers[] = {256, 257, 65536, 65541, 1u << 31, (1u << 31) + 5, UINT32_MAX - 1, UINT32_MAX};

/* On the map at hand each number as a record and as a key, up to those with a digit more, and some far beyond. */
static void ask_about_every_number(window at)
{
    const uint32_t beyond = 2 * power_of_5(sound.m) + 7;
    for (uint32_t k = 0; k < beyond + COUNT(far_numbers); k++)
        for (size_t i = 0; i < COUNT(both); i++)
            ask_why(both[i], at, k < beyond ? k : far_numbers[k - beyond]);
}

/* A window inside has a maximal block, and others are refused by 6. */
static void explain_window(window at)
{
    for (size_t i = 0; i < COUNT(both); i++)
        ask_with_every_length(some_question(both[i], &sound, at));
    if (compare_decompose(sound.m, at, 0).refusal == 8)
        ask_about_every_number(at);
}

static void explain_every_window(void)
{
    for (size_t number = 0; number < n_small_windows(sound.m); number++)
        explain_window(small_window(sound.m, number));
}

void group_small_reasons(void)
{
    for_small_maps(&sound, explain_every_window, 1);
    for (size_t number = 0; number < n_small_windows(3); number++)
        if (begin_case()) {
            make_map(&sound, 3, (shape)below(SHAPES), below(most_cuts(3) + 1));
            explain_window(small_window(3, number));
        }
}

/* ---- Group: refusals of reasons ---- */

/* Of the window 0 1 3 3: records that the map has and that it has not, blocks that are maximal and that are not. */
static const need needs_of_reasons[] = {
    {&WHY_RECORD, NO_TILE, 0, 1, {0}}, {&WHY_RECORD, NO_TILE, 6, 1, {0}},          {&WHY_RECORD, NO_TILE, 7, 1, {0}},
    {&WHY_RECORD, NO_TILE, 8, 1, {0}}, {&WHY_RECORD, NO_TILE, UINT32_MAX, 1, {0}}, {&WHY_BLOCK, NO_TILE, 7, 1, {0}},
    {&WHY_BLOCK, NO_TILE, 9, 1, {0}},  {&WHY_BLOCK, NO_TILE, 0, 1, {0}},           {&WHY_BLOCK, NO_TILE, 5, 1, {0}},
    {&WHY_BLOCK, NO_TILE, 1, 1, {0}},  {&WHY_BLOCK, NO_TILE, UINT32_MAX, 1, {0}},
};

void group_reason_refusals(void)
{
    for (size_t i = 0; i < CHOSEN_WINDOWS; i++)
        if (begin_case())
            ask_with_reasons_together(chosen_windows[i], needs_of_reasons, COUNT(needs_of_reasons));
}

/* ---- Group: large reasons ---- */

/* The maximal blocks of the window at hand. */
static uint32_t blocks[LUTNIORAD_DECOMPOSE_CELLS(LUTNIORAD_MOST_SIDE, LUTNIORAD_MOST_SIDE)];

static uint32_t list_blocks(window at)
{
    uint32_t n = compare_decompose(sound.m, at, enough(at)).first;
    memcpy(blocks, left(0), n * sizeof *blocks);
    return n;
}

/* On a map of one record, from the last block on, so far apart: the first block is opened, and all others skipped. */
static void blocks_of_one_record(uint32_t m, window at, uint32_t apart)
{
    make_picture(&sound, m, 0);
    for (uint32_t end = list_blocks(at); end > 0; end = end > apart ? end - apart : 0) {
        const lutniorad_reason reason = {0, 0, end == 1 ? LUTNIORAD_OPENED : LUTNIORAD_SKIPPED, 0, 0};
        ask_why(&WHY_BLOCK, at, blocks[end - 1]);
        require_reason(reason);
    }
}

static uint32_t record_of(uint32_t key)
{
    uint32_t record = 0;
    while (sound.keys[record] != key)
        require(++record < sound.q, "a maximal block is no record of a map that was made so");
    return record;
}

/* On a map of which each block is a record: each is opened, and hands that out, by its place among the blocks. */
static void blocks_of_one_record_each(uint32_t m, window at, uint32_t apart)
{
    make_map_around(&sound, m, at, 0);
    for (uint32_t end = list_blocks(at); end > 0; end = end > apart ? end - apart : 0) {
        const uint32_t place = end - 1, record = record_of(blocks[place]);
        const lutniorad_reason of_block = {0, 0, LUTNIORAD_OPENED, 0, place};
        const lutniorad_reason of_record = {0, 0, LUTNIORAD_HANDED_OUT, record, place};
        ask_why(&WHY_BLOCK, at, blocks[place]);
        require_reason(of_block);
        ask_why(&WHY_RECORD, at, record);
        require_reason(of_record);
    }
}

/* As many records as a map may have. */
static void longest_map(uint32_t m, shape how)
{
    make_map(&sound, m, how, most_cuts(8));
    for (size_t number = 0; number < THIN_WINDOWS; number++)
        try_reasons(&sound, thin_window(m, number));
    for (size_t number = 0; m == 8 && number < WIDE_WINDOWS; number++)
        try_reasons(&sound, wide_window(m, number));
}

void group_large_reasons(void)
{
    for (uint32_t m = 8; m <= 12; m += 4)
        for (size_t number = 0; number < THIN_WINDOWS; number++)
            if (begin_case()) {
                blocks_of_one_record(m, thin_window(m, number), m == 8 ? 1 : 511);
                blocks_of_one_record_each(m, thin_window(m, number), m == 8 ? 1 : 511);
            }
    for (uint32_t m = 8; m <= 12; m += 4)
        for (shape how = DEEP; how < SHAPES; how++)
            if (begin_case())
                longest_map(m, how);
    if (begin_case())
        blocks_of_one_record_each(12, wide_window(12, 1), 20000);
}

/* ---- Group: random reasons ---- */

static void random_reasons(void)
{
    make_random_map(&sound);
    for (size_t i = 0; i < WINDOWS_ON_MAPS; i++)
        try_reasons(&sound, random_window_on(&sound, i, (size_t)1 << 14));
}

static void random_small_reasons(void)
{
    uint32_t m = 3 + (uint32_t)below(3);
    make_map(&sound, m, (shape)below(SHAPES), below((most_cuts(m) >> below(8)) + 1));
    for (int i = 0; i < 8; i++)
        try_reasons(&sound, random_window(m, (size_t)1 << 2 * m));
}

void group_random_reasons(void)
{
    for (int i = 0; i < 300; i++)
        if (begin_case())
            random_reasons();
    for (int i = 0; i < 1000; i++)
        if (begin_case())
            random_small_reasons();
}
