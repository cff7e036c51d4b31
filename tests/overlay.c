#include "overlay.h"

#include "gaps.h"
#include "keys.h"
#include "questions.h"

#include <string.h>

/* The case at hand: today's map, the baseline, and one that need not be sound. */
static map today, base, damaged;

/* The questions on overlays. The last is about a block, and the others are about a window. */
static const operation *const asked_of_overlay[] = {&OVERLAY_EXIST, &OVERLAY_REPORT, &OVERLAY_SELECT, &OVERLAY_PART};
enum { ABOUT_WINDOW = 3 };

/* ---- One overlay ---- */

/* Of the maps at hand. */
static void ask_part(uint32_t key)
{
    question q = {&OVERLAY_PART, &today, NO_TILE, NO_WINDOW, key};
    ask(q, 0, 0);
}

/* Each number up to beyond 5^m, and some far beyond. */
static void ask_every_part(void)
{
    const uint32_t beyond = power_of_5(today.m) + 7;
    const uint32_t far[] = {5 * beyond, 65536, 65536 + 5, 1u << 31, (1u << 31) + 5, UINT32_MAX - 4, UINT32_MAX};
    for (uint32_t key = 0; key < beyond; key++)
        ask_part(key);
    for (size_t i = 0; i < COUNT(far); i++)
        ask_part(far[i]);
}

void try_overlaid(const map *a, window at)
{
    const uint8_t of_class = some_class(a);
    copy_map(&today, a);
    thin_out(&today, 1, 2);
    paint(&today, FEW);
    lay_over(a);
    try_overlay(&today, at, &of_class, 1);
    ask_in_full(some_question(&OVERLAY_PART, &today, at));
}

/* ---- Nothing today, and all today ---- */

/* A question on an overlay that must be answered as one on a map alone is, on slices of these lengths. */
typedef struct {
    question on_overlay, alone;
    size_t n_border, n_out;
} likeness;

/* The same numbers, and the same cells in border and answer slice. */
static void require_alike(likeness is)
{
    static uint16_t border[LUTNIORAD_MOST_SIDE];
    static uint32_t totals[CLASSES];
    const size_t n_totals = is.on_overlay.operation == &OVERLAY_REPORT ? is.n_out : 0;
    const lutniorad_answer answer = ask(is.on_overlay, is.n_border, is.n_out);
    memcpy(border, border_left(), is.n_border * sizeof *border);
    if (n_totals > 0)
        memcpy(totals, answer_left(), n_totals * sizeof *totals);
    require_answer(answer, "the call for one map", ask(is.alone, is.n_border, is.n_out));
    require(memcmp(border, border_left(), is.n_border * sizeof *border) == 0, "on one map there is another border");
    require(n_totals == 0 || memcmp(totals, answer_left(), n_totals * sizeof *totals) == 0,
            "on one map there are other totals");
}

/* Selected from an overlay are the same pixels as from one map alone, and in no more blocks. */
static void require_same_pixels(question on_overlay, question alone)
{
    static uint32_t rasters[2][1 << 16];
    const question both[] = {on_overlay, alone};
    size_t cells[2];
    for (size_t i = 0; i < COUNT(both); i++) {
        cells[i] = ask_in_full(both[i]);
        require(reference_sparse_raster(alone.map->m, answer_left(), cells[i], alone.at, rasters[i]),
                "a pixel is selected twice");
    }
    require(cells[0] <= cells[1], "on an overlay there are more blocks than on one map");
    for (size_t p = 0; p < (size_t)alone.at.h * alone.at.w; p++)
        require((rasters[0][p] == NO_RECORD) == (rasters[1][p] == NO_RECORD),
                "on one map other pixels are selected than on an overlay");
}

/* Of a map over another, when the overlay shows just what one of the two, which is complete, has alone. */
static void require_as_alone(const map *a, const map *under, const map *shown, window at, uint8_t of_class)
{
    const size_t n_border = below(4) == 0 ? too_short(at.w) : at.w;
    const size_t n_totals = below(4) == 0 ? CLASSES - 1 : CLASSES;
    const likeness exist = {
        {&OVERLAY_EXIST, a, NO_TILE, at, of_class}, {&EXIST, shown, NO_TILE, at, of_class}, n_border, 0};
    const likeness report = {
        {&OVERLAY_REPORT, a, NO_TILE, at, NO_CLASS}, {&REPORT, shown, NO_TILE, at, NO_CLASS}, n_border, n_totals};
    const question select = {&OVERLAY_SELECT, a, NO_TILE, at, of_class};
    const question alone = {&SELECT, shown, NO_TILE, at, of_class};
    lay_over(under);
    require_alike(exist);
    require_alike(report);
    require_same_pixels(select, alone);
    lay_over(&base);
}

/* Nothing over the baseline at hand, and the baseline as today's map over another. */
static void try_nothing_and_all(window at, uint8_t of_class)
{
    static map nothing, other;
    nothing.m = base.m;
    require_as_alone(&nothing, &base, &base, at, of_class);
    make_map(&other, base.m, EVEN, below(most_cuts(base.m < 3 ? base.m : 3) + 1));
    require_as_alone(&base, &other, &base, at, of_class);
}

/* ---- Group: overlays written out ---- */

enum { EXAMPLE, NOTHING, ALL, CORNER, OTHER_CORNER, UNSEEN, REFERENCE_MAP, ONE_CLASS, PARTLY_SEEN, PIXEL, NO_PIXEL };

static const struct {
    uint32_t m;
    size_t q;
    uint32_t keys[REFERENCE_Q];
    uint8_t classes[REFERENCE_Q];
} stated_maps[] = {
    [EXAMPLE] = {2, 3, {9, 13, 14}, {3, 2, 2}}, /* the header's */
    [NOTHING] = {2, 0, {0}, {0}},
    [ALL] = {2, 1, {0}, {7}},
    [CORNER] = {2, 1, {6}, {2}},
    [OTHER_CORNER] = {2, 1, {24}, {3}},
    [UNSEEN] = {2, 2, {5, 24}, {255, 1}},
    [REFERENCE_MAP] = {2, 7, {5, 11, 12, 13, 14, 15, 20}, {1, 2, 2, 3, 1, 1, 2}},
    [ONE_CLASS] = {2, 1, {0}, {2}},
    [PARTLY_SEEN] = {2, 4, {5, 10, 15, 20}, {1, 255, 2, 255}},
    [PIXEL] = {0, 1, {0}, {1}},
    [NO_PIXEL] = {0, 0, {0}, {0}},
};

static void make_stated(map *a, size_t number)
{
    copy_records(a, stated_maps[number].m, stated_maps[number].q, stated_maps[number].keys,
                 stated_maps[number].classes);
}

static void make_stated_pair(size_t of_today, size_t of_base)
{
    make_stated(&today, of_today);
    make_stated(&base, of_base);
    lay_over(&base);
}

static const struct {
    const operation *operation;
    int today, base;
    window at;
    uint8_t of_class;
    size_t n_border, n_out;
    lutniorad_answer answer;
    uint32_t cells[8]; /* the keys, or the first totals, all others being 0 */
    uint16_t border;   /* every cell in the end, or 0 where it is not written */
} stated_answers[] = {
    {&OVERLAY_REPORT, EXAMPLE, REFERENCE_MAP, {0, 1, 3, 3}, 0, 3, 256, {0, 0, 9, 0}, {0, 2, 6, 1}, 3},
    {&OVERLAY_REPORT, EXAMPLE, REFERENCE_MAP, {0, 1, 3, 3}, 0, 3, 255, {8, 256, 0, 0}, {0}, 3},
    {&OVERLAY_REPORT, EXAMPLE, REFERENCE_MAP, {0, 1, 3, 3}, 0, 3, 0, {8, 256, 0, 0}, {0}, 3},
    {&OVERLAY_REPORT, EXAMPLE, REFERENCE_MAP, {0, 1, 3, 3}, 0, 2, 255, {7, 3, 0, 0}, {0}, 0},
    {&OVERLAY_REPORT, EXAMPLE, REFERENCE_MAP, {0, 0, 4, 4}, 0, 4, 256, {0, 0, 16, 0}, {0, 7, 8, 1}, 4},
    {&OVERLAY_REPORT, NOTHING, REFERENCE_MAP, {0, 1, 3, 3}, 0, 3, 256, {0, 0, 9, 0}, {0, 4, 4, 1}, 3},
    {&OVERLAY_REPORT, ALL, REFERENCE_MAP, {0, 1, 3, 3}, 0, 3, 256, {0, 0, 9, 0}, {0, 0, 0, 0, 0, 0, 0, 9}, 3},
    {&OVERLAY_REPORT, REFERENCE_MAP, ALL, {0, 1, 3, 3}, 0, 3, 256, {0, 0, 9, 0}, {0, 4, 4, 1}, 3},
    {&OVERLAY_REPORT, OTHER_CORNER, ONE_CLASS, {0, 0, 4, 4}, 0, 4, 256, {0, 0, 16, 0}, {0, 0, 15, 1}, 4},
    {&OVERLAY_REPORT, UNSEEN, REFERENCE_MAP, {1, 1, 3, 3}, 0, 3, 256, {0, 0, 9, 0}, {0, 4, 3, 1}, 4}, /* and 255 */
    {&OVERLAY_REPORT, EXAMPLE, PARTLY_SEEN, {1, 0, 1, 4}, 0, 4, 256, {0, 0, 4, 0}, {0, 1, 2, 1}, 2},
    {&OVERLAY_REPORT, NO_PIXEL, PIXEL, {0, 0, 1, 1}, 0, 1, 256, {0, 0, 1, 0}, {0, 1}, 1},
    {&OVERLAY_REPORT, EXAMPLE, REFERENCE_MAP, {0, 1, 3, 4}, 0, 3, 256, {6, 0, 0, 0}, {0}, 0},
    {&OVERLAY_REPORT, EXAMPLE, PIXEL, {0, 0, 1, 1}, 0, 1, 256, {15, 0, 0, 0}, {0}, 0},
    {&OVERLAY_REPORT, EXAMPLE, EXAMPLE, {0, 0, 1, 1}, 0, 1, 256, {5, 0, 2, 0}, {0}, 0},
    {&OVERLAY_REPORT, EXAMPLE, NOTHING, {0, 0, 1, 1}, 0, 1, 256, {2, 0, 2, 0}, {0}, 0},
    {&OVERLAY_SELECT, EXAMPLE, REFERENCE_MAP, {0, 1, 3, 3}, 2, 3, 3, {0, 0, 3, 0}, {10, 21, 22}, 3},
    {&OVERLAY_SELECT, EXAMPLE, REFERENCE_MAP, {0, 1, 3, 3}, 2, 3, 2, {8, 3, 0, 0}, {0}, 3},
    {&OVERLAY_SELECT, EXAMPLE, REFERENCE_MAP, {0, 1, 3, 3}, 2, 3, 0, {8, 3, 0, 0}, {0}, 3},
    {&OVERLAY_SELECT, EXAMPLE, REFERENCE_MAP, {0, 1, 3, 3}, 2, 2, 2, {7, 3, 0, 0}, {0}, 0},
    {&OVERLAY_SELECT, EXAMPLE, REFERENCE_MAP, {0, 1, 3, 3}, 1, 3, 2, {0, 0, 2, 0}, {7, 17}, 3},
    {&OVERLAY_SELECT, EXAMPLE, REFERENCE_MAP, {0, 1, 3, 3}, 3, 3, 1, {0, 0, 1, 0}, {9}, 3},
    {&OVERLAY_SELECT, EXAMPLE, REFERENCE_MAP, {0, 1, 3, 3}, 4, 3, 0, {0, 0, 0, 0}, {0}, 3},
    {&OVERLAY_SELECT, EXAMPLE, REFERENCE_MAP, {0, 0, 4, 4}, 1, 4, 4, {0, 0, 4, 0}, {6, 7, 8, 15}, 4},
    {&OVERLAY_SELECT, EXAMPLE, REFERENCE_MAP, {0, 0, 4, 4}, 2, 4, 2, {0, 0, 2, 0}, {10, 20}, 4},
    {&OVERLAY_SELECT, NOTHING, REFERENCE_MAP, {0, 1, 3, 3}, 1, 3, 4, {0, 0, 4, 0}, {7, 14, 9, 17}, 3},
    {&OVERLAY_SELECT, ALL, REFERENCE_MAP, {0, 1, 3, 3}, 7, 3, 6, {0, 0, 6, 0}, {7, 10, 9, 17, 21, 22}, 3},
    {&OVERLAY_SELECT, CORNER, ONE_CLASS, {0, 0, 4, 4}, 2, 4, 1, {0, 0, 1, 0}, {0}, 4}, /* joined to the picture */
    {&OVERLAY_SELECT, CORNER, ONE_CLASS, {0, 0, 4, 2}, 2, 2, 2, {0, 0, 2, 0}, {5, 15}, 4},
    {&OVERLAY_SELECT, OTHER_CORNER, ONE_CLASS, {0, 0, 4, 4}, 2, 4, 6, {0, 0, 6, 0}, {5, 10, 15, 21, 22, 23}, 4},
    {&OVERLAY_SELECT, OTHER_CORNER, ONE_CLASS, {0, 0, 4, 4}, 3, 4, 1, {0, 0, 1, 0}, {24}, 4},
    {&OVERLAY_SELECT, UNSEEN, REFERENCE_MAP, {0, 0, 4, 4}, 255, 4, 1, {0, 0, 1, 0}, {5}, 4},
    {&OVERLAY_SELECT, UNSEEN, REFERENCE_MAP, {0, 0, 4, 4}, 1, 4, 3, {0, 0, 3, 0}, {14, 15, 24}, 4},
    {&OVERLAY_SELECT, EXAMPLE, PARTLY_SEEN, {0, 0, 4, 4}, 255, 4, 3, {0, 0, 3, 0}, {11, 12, 20}, 4},
    {&OVERLAY_SELECT, NO_PIXEL, PIXEL, {0, 0, 1, 1}, 1, 1, 1, {0, 0, 1, 0}, {0}, 1},
    {&OVERLAY_SELECT, PIXEL, PIXEL, {0, 0, 1, 1}, 1, 1, 0, {8, 1, 0, 0}, {0}, 1},
    {&OVERLAY_EXIST, EXAMPLE, REFERENCE_MAP, {0, 1, 3, 3}, 3, 3, 0, {0, 0, LUTNIORAD_YES, 0}, {0}, 3},
    {&OVERLAY_EXIST, EXAMPLE, REFERENCE_MAP, {0, 1, 3, 3}, 4, 3, 0, {0, 0, LUTNIORAD_NO, 0}, {0}, 3},
    {&OVERLAY_EXIST, EXAMPLE, REFERENCE_MAP, {0, 1, 3, 3}, 255, 3, 0, {0, 0, LUTNIORAD_NO, 0}, {0}, 3},
    {&OVERLAY_EXIST, EXAMPLE, REFERENCE_MAP, {1, 2, 1, 2}, 3, 2, 0, {0, 0, LUTNIORAD_NO, 0}, {0}, 2}, /* hidden */
    {&OVERLAY_EXIST, EXAMPLE, REFERENCE_MAP, {0, 1, 3, 3}, 3, 2, 0, {7, 3, 0, 0}, {0}, 0},
    {&OVERLAY_EXIST, UNSEEN, REFERENCE_MAP, {0, 0, 2, 2}, 1, 2, 0, {0, 0, LUTNIORAD_CANNOT_TELL, 0}, {0}, 2},
    {&OVERLAY_EXIST, UNSEEN, REFERENCE_MAP, {0, 0, 2, 2}, 255, 2, 0, {0, 0, LUTNIORAD_YES, 0}, {0}, 2},
    {&OVERLAY_EXIST, UNSEEN, REFERENCE_MAP, {0, 0, 2, 4}, 1, 4, 0, {0, 0, LUTNIORAD_YES, 0}, {0}, 2},
    {&OVERLAY_EXIST, UNSEEN, REFERENCE_MAP, {0, 0, 2, 4}, 0, 4, 0, {0, 0, LUTNIORAD_CANNOT_TELL, 0}, {0}, 2},
    {&OVERLAY_EXIST, UNSEEN, REFERENCE_MAP, {2, 2, 2, 2}, 1, 2, 0, {0, 0, LUTNIORAD_YES, 0}, {0}, 4},
    {&OVERLAY_EXIST, UNSEEN, REFERENCE_MAP, {2, 2, 2, 2}, 0, 2, 0, {0, 0, LUTNIORAD_NO, 0}, {0}, 4},
    {&OVERLAY_EXIST, EXAMPLE, PARTLY_SEEN, {1, 2, 1, 2}, 1, 2, 0, {0, 0, LUTNIORAD_NO, 0}, {0}, 2}, /* 255 hidden */
    {&OVERLAY_EXIST, EXAMPLE, PARTLY_SEEN, {1, 2, 1, 2}, 255, 2, 0, {0, 0, LUTNIORAD_NO, 0}, {0}, 2},
    {&OVERLAY_EXIST, EXAMPLE, PARTLY_SEEN, {0, 2, 2, 2}, 1, 2, 0, {0, 0, LUTNIORAD_CANNOT_TELL, 0}, {0}, 2},
    {&OVERLAY_EXIST, EXAMPLE, PARTLY_SEEN, {0, 2, 2, 2}, 2, 2, 0, {0, 0, LUTNIORAD_YES, 0}, {0}, 2},
    {&OVERLAY_EXIST, NOTHING, PARTLY_SEEN, {1, 2, 1, 2}, 1, 2, 0, {0, 0, LUTNIORAD_CANNOT_TELL, 0}, {0}, 2},
    {&OVERLAY_EXIST, NO_PIXEL, PIXEL, {0, 0, 1, 1}, 1, 1, 0, {0, 0, LUTNIORAD_YES, 0}, {0}, 1},
    {&OVERLAY_EXIST, NO_PIXEL, PIXEL, {0, 0, 1, 1}, 1, 0, 0, {7, 1, 0, 0}, {0}, 0},
};

/* All cells of an answer as they are written out. The total of 255 is what the others leave of the pixels. */
static void require_stated_cells(size_t i)
{
    uint32_t cells[CLASSES] = {0};
    const operation *o = stated_answers[i].operation;
    const lutniorad_answer stated = stated_answers[i].answer;
    const size_t n = o == &OVERLAY_SELECT ? stated.first : CLASSES - 1;
    if (stated.refusal != 0 || o == &OVERLAY_EXIST)
        return;
    memcpy(cells, stated_answers[i].cells, sizeof stated_answers[i].cells);
    require(memcmp(answer_left(), cells, n * sizeof *cells) == 0, "other cells than those written out");
}

static void stated_answer(size_t i)
{
    make_stated_pair((size_t)stated_answers[i].today, (size_t)stated_answers[i].base);
    question q = {stated_answers[i].operation, &today, NO_TILE, stated_answers[i].at, stated_answers[i].of_class};
    require_stated(ask(q, stated_answers[i].n_border, stated_answers[i].n_out), stated_answers[i].answer);
    require_stated_cells(i);
    require_border(q.at, stated_answers[i].border);
}

static const struct {
    int today, base;
    uint32_t key;
    lutniorad_part part;
} stated_parts[] = {
    {EXAMPLE, REFERENCE_MAP, 10, {0, 0, LUTNIORAD_TODAY, 1, 2}},
    {EXAMPLE, REFERENCE_MAP, 15, {0, 0, LUTNIORAD_BASELINE, 5, 1}},
    {EXAMPLE, REFERENCE_MAP, 0, {0, 0, LUTNIORAD_TODAY, 0, 3}},
    {EXAMPLE, REFERENCE_MAP, 5, {0, 0, LUTNIORAD_TODAY, 0, 1}},
    {EXAMPLE, REFERENCE_MAP, 6, {0, 0, LUTNIORAD_BASELINE, 0, 1}}, /* inside record 0 */
    {EXAMPLE, REFERENCE_MAP, 9, {0, 0, LUTNIORAD_TODAY, 0, 1}},
    {EXAMPLE, REFERENCE_MAP, 11, {0, 0, LUTNIORAD_BASELINE, 1, 1}},
    {EXAMPLE, REFERENCE_MAP, 14, {0, 0, LUTNIORAD_TODAY, 2, 1}},
    {EXAMPLE, REFERENCE_MAP, 24, {0, 0, LUTNIORAD_BASELINE, 6, 1}},
    {EXAMPLE, REFERENCE_MAP, 1, {27, 0, 0, 0, 0}}, /* digits 0 1 */
    {EXAMPLE, REFERENCE_MAP, 25, {27, 0, 0, 0, 0}},
    {EXAMPLE, REFERENCE_MAP, 256 + 10, {27, 0, 0, 0, 0}},
    {EXAMPLE, REFERENCE_MAP, 65536 + 10, {27, 0, 0, 0, 0}},
    {EXAMPLE, REFERENCE_MAP, (1u << 31) + 10, {27, 0, 0, 0, 0}},
    {EXAMPLE, REFERENCE_MAP, UINT32_MAX, {27, 0, 0, 0, 0}},
    {NOTHING, REFERENCE_MAP, 0, {0, 0, LUTNIORAD_BASELINE, 0, 7}},
    {NOTHING, REFERENCE_MAP, 10, {0, 0, LUTNIORAD_BASELINE, 1, 4}},
    {ALL, REFERENCE_MAP, 13, {0, 0, LUTNIORAD_TODAY, 0, 1}},
    {UNSEEN, REFERENCE_MAP, 7, {0, 0, LUTNIORAD_TODAY, 0, 1}},
    {UNSEEN, REFERENCE_MAP, 20, {0, 0, LUTNIORAD_TODAY, 1, 1}}, /* though most of it is the baseline's */
    {REFERENCE_MAP, ALL, 24, {0, 0, LUTNIORAD_TODAY, 6, 1}},
    {NO_PIXEL, PIXEL, 0, {0, 0, LUTNIORAD_BASELINE, 0, 1}},
    {PIXEL, PIXEL, 0, {0, 0, LUTNIORAD_TODAY, 0, 1}},
    {PIXEL, PIXEL, 1, {27, 0, 0, 0, 0}},
    {EXAMPLE, PIXEL, 1, {15, 0, 0, 0, 0}},
    {EXAMPLE, EXAMPLE, 1, {5, 0, LUTNIORAD_BASELINE, 0, 0}},
    {EXAMPLE, NOTHING, 1, {2, 0, LUTNIORAD_BASELINE, 0, 0}},
};

static void stated_part(size_t i)
{
    make_stated_pair((size_t)stated_parts[i].today, (size_t)stated_parts[i].base);
    ask_part(stated_parts[i].key);
    require_part(stated_parts[i].part);
}

/*
 * Refused in their order, of the header's example: each reason with all that are later. The slices of either map may be
 * cut, and its first key is written out. The window sticks out where it is 4 by 4, and key 1 names no block.
 */
typedef struct {
    uint32_t m;
    size_t n_keys, n_classes;
    uint32_t first_key;
} cut_map;

static const struct {
    cut_map today, base;
    uint16_t side;
    size_t n_border;
    uint32_t refusal, place, whose;
} stated_orders[] = {
    {{13, 3, 2, 1}, {13, 7, 6, 1}, 4, 2, 1, 0, LUTNIORAD_TODAY},
    {{13, 0, 0, 9}, {2, 7, 7, 5}, 3, 3, 1, 0, LUTNIORAD_TODAY},
    {{2, 3, 2, 1}, {13, 7, 6, 1}, 4, 2, 2, 0, LUTNIORAD_TODAY},
    {{2, 2, 3, 1}, {13, 7, 6, 1}, 4, 2, 2, 0, LUTNIORAD_TODAY},
    {{2, 0, 1, 9}, {2, 7, 7, 5}, 3, 3, 2, 0, LUTNIORAD_TODAY},
    {{2, 3, 3, 1}, {13, 7, 6, 1}, 4, 2, 3, 0, LUTNIORAD_TODAY},
    {{3, 3, 3, 9}, {13, 7, 6, 1}, 4, 2, 3, 0, LUTNIORAD_TODAY},
    {{2, 3, 3, 13}, {13, 7, 6, 1}, 4, 2, 4, 1, LUTNIORAD_TODAY},
    {{2, 3, 3, 13}, {2, 7, 7, 5}, 3, 3, 4, 1, LUTNIORAD_TODAY},
    {{2, 3, 3, 9}, {13, 7, 6, 1}, 4, 2, 1, 0, LUTNIORAD_BASELINE},
    {{2, 3, 3, 9}, {UINT32_MAX, 0, 0, 1}, 3, 3, 1, 0, LUTNIORAD_BASELINE},
    {{2, 3, 3, 9}, {3, 7, 6, 1}, 4, 2, 2, 0, LUTNIORAD_BASELINE},
    {{2, 0, 0, 9}, {3, 6, 7, 1}, 4, 2, 2, 0, LUTNIORAD_BASELINE},
    {{2, 3, 3, 9}, {2, 0, 0, 5}, 3, 3, 2, 0, LUTNIORAD_BASELINE},
    {{2, 0, 0, 9}, {2, 0, 0, 5}, 3, 3, 2, 0, LUTNIORAD_BASELINE},
    {{2, 3, 3, 9}, {3, 7, 7, 5}, 4, 2, 3, 0, LUTNIORAD_BASELINE},
    {{2, 3, 3, 9}, {2, 7, 7, 1}, 4, 2, 3, 0, LUTNIORAD_BASELINE},
    {{3, 0, 0, 9}, {2, 7, 7, 0}, 4, 2, 4, 1, LUTNIORAD_BASELINE},
    {{2, 3, 3, 9}, {2, 7, 7, 0}, 3, 3, 4, 1, LUTNIORAD_BASELINE},
    {{3, 0, 0, 9}, {2, 7, 7, 11}, 4, 2, 5, 0, LUTNIORAD_BASELINE},
    {{3, 0, 0, 9}, {2, 6, 6, 5}, 4, 2, 5, 6, LUTNIORAD_BASELINE},
    {{2, 3, 3, 9}, {2, 6, 6, 5}, 3, 3, 5, 6, LUTNIORAD_BASELINE},
    {{3, 0, 0, 9}, {2, 7, 7, 5}, 4, 2, 15, 0, 0},
    {{3, 0, 0, 9}, {2, 7, 7, 5}, 3, 3, 15, 0, 0},
    {{2, 3, 3, 9}, {3, 1, 1, 0}, 4, 2, 15, 0, 0},
    {{2, 3, 3, 9}, {0, 1, 1, 0}, 4, 2, 15, 0, 0},
    {{0, 1, 1, 0}, {2, 7, 7, 5}, 4, 2, 15, 0, 0},
    {{2, 3, 3, 9}, {2, 7, 7, 5}, 4, 2, 6, 0, 0},
    {{2, 0, 0, 9}, {2, 1, 1, 0}, 4, 2, 6, 0, 0},
    {{2, 3, 3, 9}, {2, 7, 7, 5}, 3, 2, 7, 3, 0},
    {{2, 1, 1, 0}, {2, 7, 7, 5}, 3, 2, 7, 3, 0},
};

static void stated_order(size_t i)
{
    const cut_map of_today = stated_orders[i].today, of_base = stated_orders[i].base;
    const uint32_t refusal = stated_orders[i].refusal, place = stated_orders[i].place, whose = stated_orders[i].whose;
    const bool by_maps = whose != 0 || refusal == LUTNIORAD_OTHER_M;
    const lutniorad_part no_block = {LUTNIORAD_NO_BLOCK, 0, 0, 0, 0}, no_maps = {refusal, place, whose, 0, 0};
    make_stated_pair(EXAMPLE, REFERENCE_MAP);
    today.m = of_today.m;
    today.keys[0] = of_today.first_key;
    base.m = of_base.m;
    base.keys[0] = of_base.first_key;
    lay_over_slices(&base, of_base.n_keys, of_base.n_classes);
    for (size_t k = 0; k < COUNT(asked_of_overlay); k++) {
        question q = {asked_of_overlay[k], &today, NO_TILE, {0, 1, stated_orders[i].side, stated_orders[i].side}, 1};
        lutniorad_answer answer = ask_slices(q, of_today.n_keys, of_today.n_classes, stated_orders[i].n_border, 0);
        if (k < ABOUT_WINDOW)
            require_numbers(answer, refusal, place, whose, 0);
        else
            require_part(by_maps ? no_maps : no_block);
    }
}

/* As many records as a map may have, each a pixel, and one more; today's, and the baseline's. */
static void stated_most_records(void)
{
    make_map(&today, 8, EVEN, most_cuts(8));
    make_map(&base, 8, EVEN, most_cuts(8));
    const lutniorad_part all = {0, 0, LUTNIORAD_TODAY, 0, 65536}, all_of_base = {0, 0, LUTNIORAD_BASELINE, 0, 65536};
    const lutniorad_part last = {0, 0, LUTNIORAD_TODAY, 65535, 1};
    lay_over(&base);
    ask_part(0);
    require_part(all);
    ask_part(today.keys[65535]);
    require_part(last);
    for (size_t k = 0; k < COUNT(asked_of_overlay); k++) {
        question q = {asked_of_overlay[k], &today, NO_TILE, {7, 9, 1, 1}, 0};
        lay_over_slices(&base, 65536, 65536);
        require_numbers(ask_slices(q, 65537, 65537, 1, 256), 2, 0, LUTNIORAD_TODAY, 0);
        lay_over_slices(&base, 65537, 65537);
        require_numbers(ask_slices(q, 65536, 65536, 1, 256), 2, 0, LUTNIORAD_BASELINE, 0);
        require_numbers(ask_slices(q, 0, 0, 1, 256), 2, 0, LUTNIORAD_BASELINE, 0);
    }
    lay_over(&base);
    today.q = 0;
    ask_part(0);
    require_part(all_of_base);
}

void group_overlays_written_out(void)
{
    for (size_t i = 0; i < COUNT(stated_answers); i++)
        if (begin_case())
            stated_answer(i);
    for (size_t i = 0; i < COUNT(stated_parts); i++)
        if (begin_case())
            stated_part(i);
    for (size_t i = 0; i < COUNT(stated_orders); i++)
        if (begin_case())
            stated_order(i);
    if (begin_case())
        stated_most_records();
}

/* ---- Group: small overlays ---- */

/* In every window, about each of n classes; and every part. */
static void try_every_window(const uint8_t *classes, size_t n)
{
    lay_over(&base);
    for (size_t number = 0; number < n_small_windows(today.m); number++) {
        const window at = small_window(today.m, number);
        if (is_inside(at, today.m))
            try_overlay(&today, at, classes, n);
    }
    ask_every_part();
    const window at = random_window(today.m, (size_t)1 << 2 * today.m);
    try_nothing_and_all(at, classes[below(n)]);
}

/* Two that records of either map have, one that only those of the baseline have, and one that none has. */
static const uint8_t painted[] = {1, NOT_SEEN, 2, 9};
enum { OF_TODAY = 2, OF_BASE = 3 };

/* Over all baselines, painted in all ways. */
static void try_every_baseline(void)
{
    for (size_t number = 0; number < pictures[today.m]; number++) {
        make_picture(&base, today.m, number);
        for (size_t painting = 0; painting < n_paintings(base.q, OF_BASE); painting++) {
            paint_by_number(&base, painted, OF_BASE, painting);
            try_every_window(painted, COUNT(painted));
        }
    }
}

/* Over a baseline of pixels, over one block, and over some others. */
static void try_some_baselines(void)
{
    static const uint8_t few_classes[] = {0, 1, 2, NOT_SEEN, 9};
    const size_t last = pictures[today.m] - 1, numbers[] = {last, 0, below(last + 1)};
    for (size_t i = 0; i < COUNT(numbers); i++) {
        make_picture(&base, today.m, numbers[i]);
        paint(&base, FEW);
        try_every_window(few_classes, COUNT(few_classes));
    }
}

void group_small_overlays(void)
{
    for_painted_sparse_maps(&today, painted, OF_TODAY, try_every_baseline);
    for_small_sparse_maps(&today, 200, try_some_baselines);
}

/* ---- Group: parts of overlays ---- */

/* Neither map has more records than one of a smaller m, so that much can be asked of them. */
static void make_some_pair(uint32_t m, uint32_t cut_as, shape how, size_t density)
{
    make_map(&today, m, how, below(most_cuts(cut_as) + 1));
    make_sparse(&today, density);
    make_map(&base, m, (shape)below(SHAPES), below(most_cuts(cut_as) + 1));
    lay_over(&base);
}

/* Keys whose digits are 0 in all ways: most name no block, and those that do are of every level. */
static void ask_every_pattern(void)
{
    for (uint32_t zeros = 0; zeros < (uint32_t)1 << today.m; zeros++)
        ask_part(number_without(today.m, zeros));
}

/* The block around the first pixel, and that around the last, of every level, and of those the next to them. */
static void ask_at_the_ends(void)
{
    uint32_t first = 0, last = 0;
    for (uint32_t exponent = today.m; exponent-- > 0;) {
        const uint32_t place = power_of_5(exponent);
        first += place;
        last += 4 * place;
        ask_part(first);
        ask_part(first + place);
        ask_part(last - place);
        ask_part(last);
        ask_part(last + place);
    }
}

/* Every key of pictures that are not so small; and some of large ones. */
void group_parts_of_overlays(void)
{
    for (uint32_t m = 3; m <= 4; m++)
        for (size_t density = 0; density < DENSITIES; density++)
            for (shape how = DEEP; how < SHAPES; how++)
                if (begin_case()) {
                    make_some_pair(m, m, how, density);
                    ask_every_part();
                }
    for (uint32_t m = 5; m <= LUTNIORAD_MOST_M; m++)
        for (size_t density = 0; density < DENSITIES; density++)
            if (begin_case()) {
                make_some_pair(m, 3, (shape)below(SHAPES), density);
                ask_at_the_ends();
                if (density >= HALF)
                    ask_every_pattern();
            }
}

/* ---- Group: lengths on overlays ---- */

/* Each window: over old contents, and on slices that are empty, too short by one, just long enough and longer. */
static void every_length_in_every_window(void)
{
    for (size_t number = 0; number < n_small_windows(today.m); number++) {
        const window at = small_window(today.m, number);
        for (size_t i = 0; i < ABOUT_WINDOW; i++)
            ask_with_every_length(some_question(asked_of_overlay[i], &today, at));
        if (is_inside(at, today.m))
            ask_over_old_contents(&today, at, asked_of_overlay, ABOUT_WINDOW);
    }
}

/* Keys and classes of either map that are each of any length up to one record more than the map has. */
static void every_length_of_maps(void)
{
    const window at = whole_picture(today.m);
    const size_t of_today = today.q + 2, of_base = base.q + 2, n_lengths = of_today * of_today * of_base * of_base;
    today.keys[today.q] = base.keys[base.q] = power_of_5(today.m) - 1; /* the last pixel */
    for (size_t i = 0; i < n_lengths * COUNT(asked_of_overlay); i++) {
        const size_t lengths = i / COUNT(asked_of_overlay), rest = lengths / of_today / of_today;
        lay_over_slices(&base, rest % of_base, rest / of_base);
        question q = some_question(asked_of_overlay[i % COUNT(asked_of_overlay)], &today, at);
        ask_slices(q, lengths % of_today, lengths / of_today % of_today, at.w, enough_for(q));
    }
}

static void every_length(void)
{
    make_picture(&base, today.m, below(pictures[today.m]));
    paint(&base, FEW);
    lay_over(&base);
    every_length_in_every_window();
    if (today.q <= 4 && base.q <= REFERENCE_Q)
        every_length_of_maps();
}

/* On borders and answer slices of each length up to a little more than is needed. */
static void every_border_and_answer(window at)
{
    for (size_t i = 0; i < ABOUT_WINDOW; i++) {
        question q = some_question(asked_of_overlay[i], &today, at);
        for (size_t n_border = 0; n_border <= at.w + (size_t)2; n_border++)
            for (size_t n_out = 0; n_out <= enough_for(q) + 2; n_out++)
                ask(q, n_border, n_out);
    }
}

void group_overlay_lengths(void)
{
    static const window windows[] = {{0, 1, 3, 3}, {0, 0, 4, 4}, {1, 1, 2, 2}, {3, 0, 1, 4}};
    for (size_t i = 0; i < COUNT(windows); i++)
        if (begin_case()) {
            make_stated_pair(EXAMPLE, REFERENCE_MAP);
            every_border_and_answer(windows[i]);
        }
    for_small_sparse_maps(&today, 40, every_length);
}

/* ---- Group: refusals of overlays ---- */

/* What may be wrong with a map: its m, the lengths of its slices, and one of its keys. */
typedef struct {
    uint32_t m;
    size_t n_keys, n_classes;
    uint32_t third_key;
} fault;

/* The reference map is right where it is complete, and where it may have gaps. */
static const fault faults[] = {
    {2, 7, 7, 12},     {1, 7, 7, 12},  {3, 7, 7, 12},  {13, 7, 7, 12},        {258, 7, 7, 12},
    {65538, 7, 7, 12}, {13, 0, 0, 12}, {2, 6, 7, 12},  {2, 7, 6, 12},         {2, 6, 6, 12},
    {2, 0, 0, 12},     {0, 0, 0, 12},  {12, 0, 0, 12}, {2, 0, 7, 12},         {2, 8, 8, 12},
    {2, 7, 7, 1},      {2, 7, 7, 5},   {2, 7, 7, 13},  {2, 7, 7, 25},         {2, 2, 2, 12},
    {2, 7, 7, 11},     {3, 0, 0, 12},  {3, 6, 7, 12},  {2, 65536 + 7, 7, 12}, {2, 7, 7, UINT32_MAX},
};

static void make_faulty(map *a, fault f)
{
    make_reference_map(a);
    a->m = f.m;
    a->keys[2] = f.third_key;
    a->keys[REFERENCE_Q] = 20; /* a record more, for the slices that are longer than the map */
    a->classes[REFERENCE_Q] = 2;
}

/* Each reason with each other: of either map, the window, the border and the answer slice; or the key. */
static void reasons_together(fault of_today)
{
    static const window windows[] = {{0, 1, 3, 3}, {0, 1, 3, 4}, {0, 1, 0, 3}, {65535, 0, 2, 1}};
    static const size_t borders[] = {2, 3}, outs[] = {0, 2, 3, 255, 256};
    make_faulty(&today, of_today);
    for (size_t i = 0; i < COUNT(faults) * COUNT(asked_of_overlay) * COUNT(windows); i++) {
        const fault of_base = faults[i / COUNT(windows) / COUNT(asked_of_overlay)];
        const operation *o = asked_of_overlay[i / COUNT(windows) % COUNT(asked_of_overlay)];
        make_faulty(&base, of_base);
        lay_over_slices(&base, of_base.n_keys, of_base.n_classes);
        question q = {o, &today, NO_TILE, windows[i % COUNT(windows)], 1 + (uint32_t)(i % COUNT(windows))};
        for (size_t k = 0; k < COUNT(borders) * COUNT(outs); k++)
            ask_slices(q, of_today.n_keys, of_today.n_classes, borders[k % COUNT(borders)], outs[k / COUNT(borders)]);
    }
}

void group_overlay_refusals(void)
{
    for (size_t i = 0; i < COUNT(faults); i++)
        if (begin_case())
            reasons_together(faults[i]);
    for (size_t i = 0; i < CHOSEN_WINDOWS; i++)
        if (begin_case()) {
            make_stated_pair(EXAMPLE, REFERENCE_MAP);
            for (size_t k = 0; k < ABOUT_WINDOW; k++)
                ask_with_every_length(some_question(asked_of_overlay[k], &today, chosen_windows[i]));
        }
}

/* ---- Group: damaged overlays ---- */

/* Of this map over that one. */
static void ask_of(const map *over_it, const map *under)
{
    lay_over(under);
    for (size_t i = 0; i < ABOUT_WINDOW; i++)
        ask_inside_and_outside(asked_of_overlay[i], over_it);
    ask_in_full(some_question(&OVERLAY_PART, over_it, NO_WINDOW));
}

static void ask_damaged_today(void)
{
    ask_of(&damaged, &base);
}

static void ask_damaged_baseline(void)
{
    ask_of(&today, &damaged);
}

static void ask_both_damaged(void)
{
    static map other;
    copy_map(&other, &base);
    damage_at_random(&other);
    ask_of(&damaged, &other);
}

static void every_damage(void)
{
    make_picture(&base, today.m, below(pictures[today.m]));
    paint(&base, FEW);
    for_every_damage(&today, &damaged, ask_damaged_today);
    for_every_damage(&base, &damaged, ask_damaged_baseline);
    for_every_damage(&today, &damaged, ask_both_damaged);
}

void group_damaged_overlays(void)
{
    for_small_sparse_maps(&today, 60, every_damage);
}

/* ---- Group: vast overlays ---- */

/* Of the header's example, the window 0 1 3 3 and class 2, of which there are three keys; and of block 10. */
static const struct {
    const operation *operation;
    size_t n_keys, n_classes, n_base_keys, n_base_classes, n_border, n_out;
    lutniorad_answer answer;
} vast_calls[] = {
    {&OVERLAY_EXIST, 3, 3, 7, 7, VAST, 0, {0, 0, 1, 0}},
    {&OVERLAY_EXIST, 3, 3, 7, 7, VAST + 2, 0, {0, 0, 1, 0}},
    {&OVERLAY_EXIST, 3, 3, 7, 7, 65538, 0, {0, 0, 1, 0}},
    {&OVERLAY_EXIST, VAST, VAST, 7, 7, 3, 0, {2, 0, 1, 0}},
    {&OVERLAY_EXIST, VAST + 3, 3, 7, 7, 3, 0, {2, 0, 1, 0}},
    {&OVERLAY_EXIST, 3, VAST + 3, 7, 7, 3, 0, {2, 0, 1, 0}},
    {&OVERLAY_EXIST, VAST, 0, 7, 7, 3, 0, {2, 0, 1, 0}},
    {&OVERLAY_EXIST, 0, VAST, 7, 7, 3, 0, {2, 0, 1, 0}},
    {&OVERLAY_EXIST, 3, 3, VAST + 7, VAST + 7, 3, 0, {2, 0, 2, 0}},
    {&OVERLAY_EXIST, 3, 3, VAST + 7, 7, 3, 0, {2, 0, 2, 0}},
    {&OVERLAY_EXIST, 3, 3, 7, VAST + 7, 3, 0, {2, 0, 2, 0}},
    {&OVERLAY_EXIST, 0, 0, VAST, VAST, 3, 0, {2, 0, 2, 0}},
    {&OVERLAY_REPORT, 3, 3, 7, 7, VAST + 2, 256, {0, 0, 9, 0}},
    {&OVERLAY_REPORT, 3, 3, 7, 7, 3, VAST, {0, 0, 9, 0}},
    {&OVERLAY_REPORT, 3, 3, 7, 7, VAST + 2, VAST + 255, {0, 0, 9, 0}},
    {&OVERLAY_REPORT, 3, 3, 7, 7, 65538, 65536 + 255, {0, 0, 9, 0}},
    {&OVERLAY_REPORT, 3, 3, 7, 7, VAST + 3, 255, {8, 256, 0, 0}},
    {&OVERLAY_REPORT, 3, 3, 7, 7, 2, VAST + 256, {7, 3, 0, 0}},
    {&OVERLAY_REPORT, VAST + 3, VAST + 3, 7, 7, 3, 256, {2, 0, 1, 0}},
    {&OVERLAY_REPORT, 3, 3, VAST + 7, VAST + 7, 3, 256, {2, 0, 2, 0}},
    {&OVERLAY_REPORT, 3, 3, 7, VAST + 7, 3, 256, {2, 0, 2, 0}},
    {&OVERLAY_SELECT, 3, 3, 7, 7, VAST + 2, 3, {0, 0, 3, 0}},
    {&OVERLAY_SELECT, 3, 3, 7, 7, 3, VAST, {0, 0, 3, 0}},
    {&OVERLAY_SELECT, 3, 3, 7, 7, VAST + 2, VAST + 2, {0, 0, 3, 0}},
    {&OVERLAY_SELECT, 3, 3, 7, 7, 65538, 65538, {0, 0, 3, 0}},
    {&OVERLAY_SELECT, 3, 3, 7, 7, VAST + 3, 2, {8, 3, 0, 0}},
    {&OVERLAY_SELECT, 3, 3, 7, 7, 2, VAST + 3, {7, 3, 0, 0}},
    {&OVERLAY_SELECT, VAST + 3, VAST + 3, 7, 7, 3, 3, {2, 0, 1, 0}},
    {&OVERLAY_SELECT, 3, 3, VAST + 7, VAST + 7, 3, 3, {2, 0, 2, 0}},
    {&OVERLAY_SELECT, 3, 3, 7, VAST + 7, 3, 3, {2, 0, 2, 0}},
    {&OVERLAY_PART, VAST + 3, VAST + 3, 7, 7, 0, 0, {2, 0, 1, 0}}, /* the third of these is `map` */
    {&OVERLAY_PART, 3, VAST + 3, 7, 7, 0, 0, {2, 0, 1, 0}},
    {&OVERLAY_PART, 3, 3, VAST + 7, VAST + 7, 0, 0, {2, 0, 2, 0}},
    {&OVERLAY_PART, 3, 3, VAST + 7, 7, 0, 0, {2, 0, 2, 0}},
};

static void vast_call(size_t i)
{
    const operation *o = vast_calls[i].operation;
    make_stated_pair(EXAMPLE, REFERENCE_MAP);
    lay_over_slices(&base, vast_calls[i].n_base_keys, vast_calls[i].n_base_classes);
    question q = {o, &today, NO_TILE, {0, 1, 3, 3}, o == &OVERLAY_PART ? 10 : 2};
    require_stated(
        ask_slices(q, vast_calls[i].n_keys, vast_calls[i].n_classes, vast_calls[i].n_border, vast_calls[i].n_out),
        vast_calls[i].answer);
}

void group_vast_overlays(void)
{
    for (size_t i = 0; i < COUNT(vast_calls); i++)
        if (begin_case())
            vast_call(i);
}

/* ---- Group: large overlays ---- */

/* About two classes of either map, and two parts. */
static void try_some(window at)
{
    const uint8_t asked[] = {some_class(&today), some_class(&base)};
    try_overlay(&today, at, asked, COUNT(asked));
    for (int i = 0; i < 2; i++)
        ask_in_full(some_question(&OVERLAY_PART, &today, at));
}

/* As many records as there can be in either map, today's thinned out, through thin windows; at m = 8 a wide one too. */
static void large_overlay(uint32_t m, shape how, size_t density)
{
    make_map(&today, m, how, most_cuts(8));
    make_sparse(&today, density);
    make_map(&base, m, (shape)below(SHAPES), most_cuts(8));
    lay_over(&base);
    for (size_t number = density % 2; number < THIN_WINDOWS; number += 2)
        try_some(thin_window(m, number));
    if (m == 8) {
        question q = some_question(&OVERLAY_SELECT, &today, wide_window(m, below(WIDE_WINDOWS)));
        try_some(q.at);
        ask(q, q.at.w, ask_too_short(q));
        try_nothing_and_all(q.at, some_class(&base));
    }
}

void group_large_overlays(void)
{
    for (uint32_t m = 8; m <= 12; m += 4)
        for (size_t density = NO_RECORDS; density < DENSITIES; density++)
            if (begin_case())
                large_overlay(m, (shape)below(SHAPES), density);
}

/* ---- Group: joined overlays ---- */

/* All records of a map have one class, but for some, which have the other. */
enum { COMMON = 1, RARE = 2 };

static void paint_rarely(map *a, size_t rare)
{
    for (size_t i = 0; i < a->q; i++)
        a->classes[i] = COMMON;
    for (size_t i = 0; a->q > 0 && i < rare; i++)
        a->classes[below(a->q)] = RARE;
}

/*
 * So many records of either map are of the rare class, so that of the common one blocks of all sizes are joined: those
 * of today's records with the baseline's, and those with the gaps.
 */
static void make_joined(uint32_t m, size_t density, size_t rare)
{
    make_map(&today, m, RAGGED, below(most_cuts(m < 6 ? m : 6) + 1));
    make_sparse(&today, density);
    make_map(&base, m, RAGGED, rare == 0 ? 0 : below(most_cuts(m < 4 ? m : 4) + 1));
    paint_rarely(&today, rare);
    paint_rarely(&base, rare / 2);
    lay_over(&base);
}

/* Both classes in some windows that are not too large. */
static void joined_overlay(uint32_t m, size_t density, size_t rare)
{
    static const uint8_t both[] = {COMMON, RARE};
    make_joined(m, density, rare);
    for (int i = 0; i < 4; i++)
        try_overlay(&today, random_window(m, (size_t)1 << 16), both, COUNT(both));
}

/* The common class in all of the picture and in nearly all of it, which in the smallest picture is no window. */
static void widely_joined_overlay(uint32_t m, size_t density, size_t rare)
{
    make_joined(m, density, rare);
    question select = {&OVERLAY_SELECT, &today, NO_TILE, wide_window(m, 0), COMMON};
    ask_in_full(select);
    select.at = wide_window(m, 1 + below(2));
    ask_in_full(select);
}

static void largest_report(void)
{
    make_joined(LUTNIORAD_MOST_M, HALF, 5);
    question report = {&OVERLAY_REPORT, &today, NO_TILE, wide_window(LUTNIORAD_MOST_M, 1), NO_CLASS};
    ask_in_full(report);
}

/* The larger the picture the longer it takes, and the fewer cases there are. */
void group_joined_overlays(void)
{
    static const size_t densities[] = {HALF, NO_RECORDS, ONE_RECORD, COMPLETE};
    for (uint32_t m = 0; m <= LUTNIORAD_MOST_M; m++)
        for (size_t i = 0; i < COUNT(densities); i++)
            for (size_t rare = 0; rare <= 2; rare++) {
                if (begin_case())
                    joined_overlay(m, densities[i], rare);
                if (m < 11 - i && begin_case())
                    widely_joined_overlay(m, densities[i], rare);
            }
    for (uint32_t m = 11; m <= LUTNIORAD_MOST_M; m++)
        for (size_t i = 0; i < 3; i++)
            if (begin_case())
                widely_joined_overlay(m, densities[i], i / 2);
    if (begin_case())
        largest_report();
}

/* ---- Group: nested overlays ---- */

/*
 * Blocks of all sizes about a pixel, of which some lie in larger ones of the other map, or around smaller ones; and
 * windows about the pixel that have no more pixels than the longest strip.
 */
static void nested_overlay(uint32_t m, window pixel, uint32_t least)
{
    make_map_around(&today, m, pixel, least);
    thin_out(&today, 1 + below(3), 3);
    make_map_around(&base, m, pixel, (uint32_t)below(m + 1));
    lay_over(&base);
    for (int i = 0; i < 12; i++) {
        const window at = window_about(m, pixel, (size_t)1 << below(5), below(WINDOWS_ABOUT));
        if (is_inside(at, m) && (size_t)at.h * at.w <= LUTNIORAD_MOST_SIDE)
            try_some(at);
    }
}

void group_nested_overlays(void)
{
    enum { PIXELS = 8 };
    for (uint32_t m = 1; m <= LUTNIORAD_MOST_M; m++)
        for (uint32_t least = 0; least < m; least++)
            for (size_t number = 0; number < PIXELS; number++)
                if (begin_case())
                    nested_overlay(m, nth_pixel(m, number), least);
}

/* ---- Group: random overlays ---- */

/* On slices that are right, or too short or too long. */
static void lengths_at_random(question q)
{
    const size_t n_keys = near_length(today.q), n_base_keys = near_length(base.q);
    const size_t n_classes = below(2) == 0 ? n_keys : near_length(today.q);
    const size_t n_base_classes = below(2) == 0 ? n_base_keys : near_length(base.q);
    const size_t n_border = near_length(q.at.w), n_out = near_length(enough_for(q));
    lay_over_slices(&base, n_base_keys, n_base_classes);
    ask_slices(q, n_keys, n_classes, n_border, n_out);
    lay_over_slices(&base, base.q, n_base_classes);
    ask_slices(q, today.q, n_classes, n_border, n_out);
}

/* Some question besides, on such slices, on either map damaged, and over a baseline of some m. */
static void try_at_random(window at)
{
    question q = some_question(asked_of_overlay[below(COUNT(asked_of_overlay))], &today, at);
    try_some(at);
    ask_at_random(q);
    lengths_at_random(q);
    copy_map(&damaged, &base);
    damage_at_random(&damaged);
    lay_over(&damaged);
    ask_in_full(q);
    make_map(&damaged, (uint32_t)below(LUTNIORAD_MOST_M + 1), RAGGED, 0);
    lay_over(&damaged);
    ask_in_full(q);
    lay_over(&base);
}

/* Today's map has nothing to do with the baseline; or it is that with some records left out, or cut and joined too. */
static void make_today(void)
{
    const uint32_t m = base.m;
    const size_t most = most_cuts(m < 8 ? m : 8), kind = below(3);
    if (kind == 0)
        make_map(&today, m, (shape)below(SHAPES), below((most >> below(16)) + 1));
    else
        copy_map(&today, &base);
    for (int i = 0; kind == 2 && i < 8; i++)
        (below(2) == 0 ? cut_record : merge_record)(&today, below(today.q));
    make_sparse(&today, below(DENSITIES));
    for (size_t i = 0; i < today.q; i++)
        if (below(4) == 0)
            today.classes[i] = some_class(&base);
}

static void random_overlays(void)
{
    make_random_map(&base);
    for (size_t i = 0; i < WINDOWS_ON_MAPS; i++) {
        const window at = random_window_on(&base, i, (size_t)1 << 14);
        make_today();
        lay_over(&base);
        try_at_random(at);
        try_nothing_and_all(at, some_class(&base));
    }
}

/* Pictures that are small enough for many windows. */
static void random_small_overlays(void)
{
    const uint32_t m = 2 + (uint32_t)below(4);
    make_map(&base, m, (shape)below(SHAPES), below((most_cuts(m) >> below(8)) + 1));
    make_today();
    lay_over(&base);
    for (int i = 0; i < 8; i++)
        try_at_random(random_window(m, (size_t)1 << 2 * m));
}

void group_random_overlays(void)
{
    for (int i = 0; i < 150; i++)
        if (begin_case())
            random_overlays();
    for (int i = 0; i < 800; i++)
        if (begin_case())
            random_small_overlays();
}
