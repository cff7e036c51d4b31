#include "many.h"

#include "questions.h"

#include <string.h>

/* The case at hand: a sound map, one that need not be sound, and a list of windows, longer than any that is taken. */
enum { MOST_WINDOWS = 256, CELLS = 5 /* for each window */, ROOM_FOR_WINDOWS = 1 << 15 };
static map sound, damaged;
static window list[ROOM_FOR_WINDOWS];

/* ---- Calls ---- */

static lutniorad_answer compare_slices(const map *a, size_t n_keys, size_t n_classes, given windows, given border,
                                       given out)
{
    given keys = {a->keys, n_keys}, classes = {a->classes, n_classes};
    call c = {&WINDOWS, a->m, NO_TILE, NO_WINDOW, NO_CLASS, {keys, classes, windows, border, out}};
    return compare(c);
}

/* The first so many numbers of the list at hand. */
static lutniorad_answer compare_list(const map *a, size_t n_windows, size_t n_border, size_t n_out)
{
    given windows = {list, n_windows}, border = {NULL, n_border}, out = {NULL, n_out};
    return compare_slices(a, a->q, a->q, windows, border, out);
}

/* ---- A list beside its windows one by one, and beside its two parts ---- */

/* What the windows of a list leave: their cells, and the border. */
typedef struct {
    uint32_t cells[CELLS * MOST_WINDOWS];
    uint16_t border[4096 + NEAR];
    size_t n_border;
} outcome;

/* Of the list that was tried last: the border before it, and what it left. */
static outcome before, whole;

/* The windows of the list from one number on to before another, on the border as it is then. */
static void answer_together(const map *a, size_t from, size_t to, outcome *o)
{
    static uint16_t old[COUNT(whole.border)];
    size_t n = to - from;
    given windows = {list + from, 4 * n}, border = {old, o->n_border}, out = {NULL, CELLS * n + below(NEAR)};
    memcpy(old, o->border, sizeof old);
    require_numbers(compare_slices(a, a->q, a->q, windows, border, out), 0, 0, (uint32_t)n, 0);
    memcpy(o->border, left(3), o->n_border * sizeof *o->border);
    memcpy(o->cells + CELLS * from, left(4), CELLS * n * sizeof *o->cells);
}

/* The library's own calls about each window: all openings on the same border, one after another. */
static void answer_one_by_one(const map *a, size_t n, outcome *o)
{
    static uint32_t openings[LUTNIORAD_OPEN_CELLS(4096, 4096)], totals[CLASSES];
    static uint16_t of_report[4096];
    for (size_t i = 0; i < n; i++) {
        const window at = list[i];
        lutniorad_answer opened = lutniorad_open(a->m, a->keys, a->q, a->classes, a->q, at.r0, at.c0, at.h, at.w,
                                                 o->border, o->n_border, openings, COUNT(openings));
        lutniorad_answer reported = lutniorad_report(a->m, a->keys, a->q, a->classes, a->q, at.r0, at.c0, at.h, at.w,
                                                     of_report, COUNT(of_report), totals, COUNT(totals));
        const uint32_t cells[] = {opened.refusal, opened.place, opened.first, opened.second, reported.first};
        memcpy(o->cells + CELLS * i, cells, sizeof cells);
    }
}

static void require_whole(const outcome *o, size_t n, const char *other_cells, const char *other_border)
{
    require(memcmp(o->cells, whole.cells, CELLS * n * sizeof *o->cells) == 0, other_cells);
    require(memcmp(o->border, whole.border, o->n_border * sizeof *o->border) == 0, other_border);
}

/* The list that was tried last, cut in two. */
static void try_cut(const map *a, size_t n, size_t cut)
{
    static outcome parts;
    parts = before;
    answer_together(a, 0, cut, &parts);
    answer_together(a, cut, n, &parts);
    require_whole(&parts, n, "cut in two, the list has other cells", "cut in two, the list leaves another border");
}

/* The first n windows of the list, on a border that is long enough. */
static void try_list(const map *a, size_t n, size_t n_border)
{
    static outcome one_by_one;
    const size_t most = below(2) == 0 ? UINT16_MAX : side_of(a->m) + (size_t)1; /* any, or such as windows leave */
    before.n_border = n_border;
    for (size_t i = 0; i < n_border; i++)
        before.border[i] = (uint16_t)below(most + 1);
    whole = one_by_one = before;
    answer_together(a, 0, n, &whole);
    answer_one_by_one(a, n, &one_by_one);
    require_whole(&one_by_one, n, "the library's calls about its windows say something else",
                  "the library's calls about its windows leave another border");
    try_cut(a, n, below(n + 1));
}

/* ---- Group: lists written out ---- */

/* What stands in each cell of border and answer slice before the call. */
enum { OLD = 9, MOST_STATED = 4, MOST_BORDER = 5 };

/* On the reference map, with another m if it is not 2; at m = 0 on the map of one pixel. */
static const struct {
    uint32_t m;
    size_t n_windows;
    window windows[MOST_STATED];
    size_t n_border, n_out;
    lutniorad_answer answer;
    uint32_t cells[CELLS * MOST_STATED];
    uint16_t border[MOST_BORDER]; /* 0 where it is not written */
} stated_lists[] = {
    {2, 12, {{0, 1, 3, 3}, {2, 0, 3, 1}, {3, 0, 1, 1}}, 4, 15, {0, 0, 3, 0},
     {0, 0, 4, 7, 9, 6, 0, 0, 0, 0, 0, 0, 1, 1, 1}, {4, 3, 3}},
    {2, 12, {{0, 1, 3, 3}, {2, 0, 3, 1}, {3, 0, 1, 1}}, 3, 18, {0, 0, 3, 0},
     {0, 0, 4, 7, 9, 6, 0, 0, 0, 0, 0, 0, 1, 1, 1}, {4, 3, 3}},
    {2, 12, {{0, 1, 3, 3}, {2, 0, 3, 1}, {3, 0, 1, 1}}, 2, 15, {7, 3, 0, 0}, {0}, {0}},
    {2, 12, {{0, 1, 3, 3}, {2, 0, 3, 1}, {3, 0, 1, 1}}, 0, 15, {7, 3, 0, 0}, {0}, {0}},
    {2, 12, {{0, 1, 3, 3}, {2, 0, 3, 1}, {3, 0, 1, 1}}, 3, 14, {8, 15, 0, 0}, {0}, {0}},
    {2, 12, {{0, 1, 3, 3}, {2, 0, 3, 1}, {3, 0, 1, 1}}, 5, 0, {8, 15, 0, 0}, {0}, {0}},
    {2, 12, {{0, 1, 3, 3}, {2, 0, 3, 1}, {3, 0, 1, 1}}, 2, 14, {7, 3, 0, 0}, {0}, {0}}, /* 7 before 8 */
    {2, 11, {{0, 1, 3, 3}, {2, 0, 3, 1}, {3, 0, 1, 1}}, 2, 14, {25, 0, 0, 0}, {0}, {0}}, /* 25 before 7 */
    {2, 11, {{0, 1, 3, 3}, {2, 0, 3, 1}, {3, 0, 1, 1}}, 4, 15, {25, 0, 0, 0}, {0}, {0}},
    {2, 13, {{0, 1, 3, 3}, {2, 0, 3, 1}, {3, 0, 1, 1}, {0, 0, 1, 1}}, 4, 20, {25, 0, 0, 0}, {0}, {0}},
    {3, 11, {{0, 1, 3, 3}, {2, 0, 3, 1}, {3, 0, 1, 1}}, 2, 14, {3, 0, 0, 0}, {0}, {0}}, /* the map before all else */
    {13, 11, {{0, 1, 3, 3}, {2, 0, 3, 1}, {3, 0, 1, 1}}, 2, 14, {1, 0, 0, 0}, {0}, {0}},
    {13, 0, {{0, 0, 0, 0}}, 0, 0, {1, 0, 0, 0}, {0}, {0}},
    {2, 0, {{0, 0, 0, 0}}, 0, 0, {0, 0, 0, 0}, {0}, {0}},
    {2, 0, {{0, 1, 3, 3}}, 5, 7, {0, 0, 0, 0}, {0}, {0}},
    {2, 1, {{0, 1, 3, 3}}, 5, 7, {25, 0, 0, 0}, {0}, {0}},
    {2, 4, {{2, 0, 3, 1}}, 0, 5, {0, 0, 1, 0}, {6, 0, 0, 0, 0}, {0}}, /* without a border */
    {2, 4, {{2, 0, 3, 1}}, 0, 4, {8, 5, 0, 0}, {0}, {0}},
    {2, 4, {{2, 0, 3, 1}}, 5, 6, {0, 0, 1, 0}, {6, 0, 0, 0, 0}, {0}},
    {2, 8, {{0, 0, 1, 5}, {0, 0, 1, 65535}}, 0, 10, {0, 0, 2, 0}, {6, 0, 0, 0, 0, 6, 0, 0, 0, 0}, {0}},
    {2, 12, {{0, 0, 1, 65535}, {0, 2, 1, 2}, {65535, 0, 1, 4}}, 2, 15, {0, 0, 3, 0},
     {6, 0, 0, 0, 0, 0, 0, 2, 2, 2, 6, 0, 0, 0, 0}, {1, 1}},
    {2, 12, {{0, 0, 1, 65535}, {0, 2, 1, 2}, {65535, 0, 1, 4}}, 1, 15, {7, 2, 0, 0}, {0}, {0}},
    {2, 12, {{0, 0, 4, 2}, {0, 1, 0, 3}, {3, 3, 1, 1}}, 2, 16, {0, 0, 3, 0},
     {0, 0, 2, 2, 8, 6, 0, 0, 0, 0, 0, 0, 1, 1, 1}, {4, 4}},
    {2, 8, {{0, 1, 3, 3}, {0, 0, 4, 4}}, 4, 10, {0, 0, 2, 0}, {0, 0, 4, 7, 9, 0, 0, 1, 7, 16}, {4, 4, 4, 4}},
    {2, 8, {{0, 0, 4, 4}, {0, 1, 3, 3}}, 4, 10, {0, 0, 2, 0}, {0, 0, 1, 7, 16, 0, 0, 4, 7, 9}, {3, 3, 3, 4}},
    {2, 8, {{0, 0, 4, 4}, {0, 1, 3, 3}}, 3, 10, {7, 4, 0, 0}, {0}, {0}},
    {2, 8, {{0, 1, 3, 3}, {0, 0, 4, 4}}, 3, 9, {7, 4, 0, 0}, {0}, {0}},
    {2, 8, {{0, 1, 3, 3}, {0, 1, 3, 3}}, 3, 10, {0, 0, 2, 0}, {0, 0, 4, 7, 9, 0, 0, 4, 7, 9}, {3, 3, 3}},
    {2, 16, {{0, 0, 4, 4}, {0, 0, 4, 3}, {0, 2, 1, 2}, {1, 0, 1, 1}}, 5, 20, {0, 0, 4, 0},
     {0, 0, 1, 7, 16, 0, 0, 5, 5, 12, 0, 0, 2, 2, 2, 0, 0, 1, 1, 1}, {2, 1, 4, 4}}, /* falling width */
    {2, 16, {{1, 0, 1, 1}, {0, 2, 1, 2}, {1, 1, 2, 2}, {3, 0, 1, 4}}, 5, 20, {0, 0, 4, 0},
     {0, 0, 1, 1, 1, 0, 0, 2, 2, 2, 0, 0, 4, 4, 4, 0, 0, 2, 2, 4}, {4, 4, 4, 4}}, /* rising width */
    {0, 8, {{0, 0, 1, 1}, {0, 0, 1, 2}}, 1, 10, {0, 0, 2, 0}, {0, 0, 1, 1, 1, 6, 0, 0, 0, 0}, {1}},
    {0, 8, {{0, 0, 1, 2}, {0, 0, 1, 1}}, 0, 10, {7, 1, 0, 0}, {0}, {0}},
};

static void stated_list(size_t i)
{
    uint16_t border_cells[MOST_BORDER], border_then[MOST_BORDER];
    uint32_t out_cells[CELLS * MOST_STATED], out_then[CELLS * MOST_STATED];
    const lutniorad_answer stated = stated_lists[i].answer;
    given windows = {stated_lists[i].windows, stated_lists[i].n_windows};
    given border = {border_cells, stated_lists[i].n_border}, out = {out_cells, stated_lists[i].n_out};
    for (size_t k = 0; k < MOST_BORDER; k++) {
        border_cells[k] = OLD;
        border_then[k] = stated_lists[i].border[k] != 0 ? stated_lists[i].border[k] : OLD;
    }
    for (size_t k = 0; k < COUNT(out_cells); k++) {
        out_cells[k] = OLD;
        out_then[k] = k < CELLS * stated.first ? stated_lists[i].cells[k] : OLD;
    }
    make_stated_map(&sound, stated_lists[i].m);
    require_stated(compare_slices(&sound, sound.q, sound.q, windows, border, out), stated);
    require(memcmp(left(3), border_then, border.length * sizeof *border_then) == 0,
            "another border than the one written out");
    require(memcmp(left(4), out_then, out.length * sizeof *out_then) == 0, "other cells than those written out");
}

/* The largest picture, of one record: the whole of it, its corner, and what sticks out by one. */
static void stated_largest_picture(void)
{
    static const window windows[] = {{0, 0, 4096, 4096}, {0, 4095, 1, 1}, {0, 0, 4097, 1}, {4096, 0, 1, 1}};
    static const uint32_t cells[] = {0, 0, 1, 1, 16777216, 0, 0, 1, 1, 1, 6, 0, 0, 0, 0, 6, 0, 0, 0, 0};
    make_picture(&sound, 12, 0);
    memcpy(list, windows, sizeof windows);
    require_numbers(compare_list(&sound, 16, 4095, 20), 7, 4096, 0, 0);
    require_numbers(compare_list(&sound, 16, 4096, 20), 0, 0, 4, 0);
    require(memcmp(left(4), cells, sizeof cells) == 0, "other cells than those written out");
    const uint16_t *border = left(3);
    for (size_t i = 0; i < 4096; i++)
        require(border[i] == (i == 0 ? 1 : 4096), "another border than the one written out");
}

/* As many records as a map may have, each a pixel, and one more. */
static void stated_most_records(void)
{
    static const window pixel = {7, 9, 1, 1};
    given windows = {&pixel, 4}, border = {NULL, 1}, out = {NULL, CELLS};
    make_map(&sound, 8, EVEN, most_cuts(8));
    require_numbers(compare_slices(&sound, 65537, 65537, windows, border, out), 2, 0, 0, 0);
    require_numbers(compare_slices(&sound, 65536, 65536, windows, border, out), 0, 0, 1, 0);
}

void group_lists_written_out(void)
{
    for (size_t i = 0; i < COUNT(stated_lists); i++)
        if (begin_case())
            stated_list(i);
    if (begin_case())
        stated_largest_picture();
    if (begin_case())
        stated_most_records();
}

/* ---- Group: lengths of lists ---- */

/* On the reference map, over and over: a window that needs three cells of the border, one that is refused, a pixel. */
static void begin_list(void)
{
    static const window windows[] = {{0, 1, 3, 3}, {0, 0, 1, 65535}, {3, 0, 1, 1}};
    make_reference_map(&sound);
    for (size_t i = 0; i < ROOM_FOR_WINDOWS; i++)
        list[i] = windows[i % COUNT(windows)];
}

static const struct {
    size_t n_windows;
    uint32_t refusal, first;
} stated_lengths[] = {
    {0, 0, 0},     {1, 25, 0},     {2, 25, 0},     {3, 25, 0},     {4, 0, 1},      {5, 25, 0},     {6, 25, 0},
    {7, 25, 0},    {8, 0, 2},      {9, 25, 0},     {1019, 25, 0},  {1020, 0, 255}, {1021, 25, 0},  {1022, 25, 0},
    {1023, 25, 0}, {1024, 0, 256}, {1025, 25, 0},  {1026, 25, 0},  {1027, 25, 0},  {1028, 25, 0},  {1029, 25, 0},
    {1032, 25, 0}, {2048, 25, 0},  {65535, 25, 0}, {65536, 25, 0}, {65540, 25, 0}, {66560, 25, 0}, {66564, 25, 0},
};

static void stated_length(size_t i)
{
    begin_list();
    require_numbers(compare_list(&sound, stated_lengths[i].n_windows, 3, CELLS * MOST_WINDOWS),
                    stated_lengths[i].refusal, 0, stated_lengths[i].first, 0);
}

/* With each border, and answer slices that are empty, too short by one, just long enough and longer. */
static void list_with_every_length(size_t n_windows)
{
    static const size_t borders[] = {0, 2, 3, 5};
    const size_t n = CELLS * (n_windows / 4), outs[] = {0, too_short(n), n, n + 4, n + 5};
    begin_list();
    for (size_t i = 0; i < COUNT(borders) * COUNT(outs); i++)
        compare_list(&sound, n_windows, borders[i % COUNT(borders)], outs[i / COUNT(borders)]);
}

/* All windows refused. */
static void refused_list(size_t n)
{
    make_reference_map(&sound);
    for (size_t i = 0; i < n; i++) {
        list[i] = small_window(2, below(n_small_windows(2)));
        list[i].c0 = 4;
    }
    require_numbers(compare_list(&sound, 4 * n, 0, CELLS * n), 0, 0, (uint32_t)n, 0);
    try_list(&sound, n, 3);
}

static void every_cut(size_t n)
{
    begin_list();
    try_list(&sound, n, 4);
    for (size_t cut = 0; cut <= n; cut++)
        try_cut(&sound, n, cut);
}

void group_list_lengths(void)
{
    for (size_t i = 0; i < COUNT(stated_lengths); i++)
        if (begin_case())
            stated_length(i);
    for (size_t n_windows = 0; n_windows <= 1040; n_windows += n_windows == 40 ? 960 : 1)
        if (begin_case())
            list_with_every_length(n_windows);
    for (size_t n = 1; n <= MOST_WINDOWS; n += 51) /* up to 256 */
        if (begin_case()) {
            refused_list(n);
            every_cut(n);
        }
}

/* ---- Group: small lists ---- */

/* The windows of a small picture by rising and by falling width, and mixed. */
enum { RISING_WIDTH, FALLING_WIDTH, MIXED, ORDERS };

static size_t number_in_order(size_t i, size_t n, int order)
{
    enum { STRIDE = 7919 }; /* a prime that does not divide n */
    return order == RISING_WIDTH ? i : order == FALLING_WIDTH ? n - 1 - i : i * STRIDE % n;
}

/* All windows of the map at hand, inside and outside, in lists as long as can be. */
static void list_every_window(int order)
{
    const size_t n = n_small_windows(sound.m);
    for (size_t first = 0; first < n; first += MOST_WINDOWS) {
        size_t n_list = n - first < MOST_WINDOWS ? n - first : MOST_WINDOWS;
        for (size_t i = 0; i < n_list; i++)
            list[i] = small_window(sound.m, number_in_order(first + i, n, order));
        try_list(&sound, n_list, side_of(sound.m) + below(NEAR));
    }
}

static void list_in_every_order(void)
{
    for (int order = 0; order < ORDERS; order++)
        list_every_window(order);
}

/* The first n windows of the list, on every border up to one that no window needs in full. */
static void list_on_every_border(size_t n)
{
    const size_t side = side_of(sound.m);
    for (size_t n_border = 0; n_border <= side + 1; n_border++) {
        compare_list(&sound, 4 * n, n_border, CELLS * n);
        compare_list(&sound, 4 * n, n_border, CELLS * n - 1);
    }
    try_list(&sound, n, side);
}

/* At m = 1, each window inside the picture, and some outside: three of them in every order, the first by its number. */
static const window few_windows[] = {
    {0, 0, 1, 1}, {0, 1, 1, 1}, {1, 0, 1, 1}, {1, 1, 1, 1}, {0, 0, 1, 2},     {1, 0, 1, 2},     {0, 0, 2, 1},
    {0, 1, 2, 1}, {0, 0, 2, 2}, {0, 0, 0, 2}, {0, 0, 2, 0}, {0, 0, 1, 3},     {0, 1, 1, 2},     {1, 0, 2, 2},
    {2, 0, 1, 2}, {0, 2, 2, 1}, {0, 0, 3, 1}, {2, 2, 0, 0}, {65535, 0, 2, 2}, {0, 65535, 1, 3}, {0, 0, 65535, 65535},
};

static void every_three_windows(size_t number)
{
    list[0] = few_windows[number];
    for (size_t picture = 0; picture < pictures[1]; picture++) {
        make_picture(&sound, 1, picture);
        for (size_t i = 0; i < COUNT(few_windows) * COUNT(few_windows); i++) {
            list[1] = few_windows[i % COUNT(few_windows)];
            list[2] = few_windows[i / COUNT(few_windows)];
            list_on_every_border(3);
        }
    }
}

/* On the reference map, and on the largest picture of few records. */
static void every_two_windows(size_t number)
{
    list[0] = chosen_windows[number];
    for (size_t i = 0; i < CHOSEN_WINDOWS; i++) {
        list[1] = chosen_windows[i];
        make_reference_map(&sound);
        list_on_every_border(2);
        make_map(&sound, 12, RAGGED, 2);
        try_list(&sound, 2, side_of(12));
    }
}

void group_small_lists(void)
{
    for_small_maps(&sound, list_in_every_order, 1);
    for (shape how = DEEP; how < SHAPES; how++)
        for (int order = 0; order < ORDERS; order++)
            if (begin_case()) {
                make_map(&sound, 3, how, below(most_cuts(3) + 1));
                list_every_window(order);
            }
    for (size_t number = 0; number < COUNT(few_windows); number++)
        if (begin_case())
            every_three_windows(number);
    for (size_t number = 0; number < CHOSEN_WINDOWS; number++)
        if (begin_case())
            every_two_windows(number);
}

/* ---- Group: refusals of lists ---- */

/* The reference map, and a record more for the slices that are longer, with another m and another third key. */
static const struct {
    uint32_t m, third_key;
    size_t n_keys, n_classes;
    uint32_t refusal, place;
} spoiled_maps[] = {
    {2, 12, 7, 7, 0, 0}, {13, 12, 7, 7, 1, 0}, {258, 12, 7, 7, 1, 0}, {UINT32_MAX, 1, 0, 7, 1, 0}, {2, 12, 7, 6, 2, 0},
    {2, 12, 6, 7, 2, 0}, {2, 12, 0, 0, 2, 0},  {2, 1, 7, 8, 2, 0},    {2, 1, 7, 7, 3, 2},          {3, 12, 7, 7, 3, 0},
    {2, 26, 6, 6, 3, 2}, {2, 5, 7, 7, 4, 2},   {2, 12, 8, 8, 4, 7},   {2, 13, 7, 7, 5, 2},         {2, 12, 6, 6, 5, 6},
};

/* A length of the list, which begins as in the group before, of the border or of the answer slice, and its refusal. */
typedef struct {
    size_t length;
    uint32_t refusal, place;
} reason;

static const reason lists[] = {{12, 0, 0}, {11, 25, 0}, {13, 25, 0}, {2, 25, 0}, {1028, 25, 0}, {65548, 25, 0}};
static const reason borders[] = {{3, 0, 0}, {4, 0, 0}, {2, 7, 3}, {0, 7, 3}};
static const reason outs[] = {{15, 0, 0}, {16, 0, 0}, {14, 8, 15}, {0, 8, 15}};

/* The first reason that holds, or else the answer for three windows. */
static lutniorad_answer first_of(const reason *reasons, size_t n)
{
    lutniorad_answer answer = {0, 0, 3, 0};
    for (size_t i = n; i > 0; i--)
        if (reasons[i - 1].refusal != 0) {
            lutniorad_answer refused = {reasons[i - 1].refusal, reasons[i - 1].place, 0, 0};
            answer = refused;
        }
    return answer;
}

static void list_with_reasons_together(size_t k)
{
    const size_t n_keys = spoiled_maps[k].n_keys, n_classes = spoiled_maps[k].n_classes;
    begin_list();
    append(&sound, 6);
    sound.m = spoiled_maps[k].m;
    sound.keys[2] = spoiled_maps[k].third_key;
    for (size_t i = 0; i < COUNT(lists) * COUNT(borders) * COUNT(outs); i++) {
        const reason reasons[] = {{0, spoiled_maps[k].refusal, spoiled_maps[k].place},
                                  lists[i / COUNT(borders) / COUNT(outs)],
                                  borders[i % COUNT(borders)],
                                  outs[i / COUNT(borders) % COUNT(outs)]};
        given windows = {list, reasons[1].length}, border = {NULL, reasons[2].length}, out = {NULL, reasons[3].length};
        require_stated(compare_slices(&sound, n_keys, n_classes, windows, border, out),
                       first_of(reasons, COUNT(reasons)));
    }
}

void group_list_refusals(void)
{
    for (size_t k = 0; k < COUNT(spoiled_maps); k++)
        if (begin_case())
            list_with_reasons_together(k);
}

/* ---- Group: lists on damaged maps ---- */

/* Of a small map with each damage at each record, on slices that are long enough and that are too short. */
static void list_on_every_damage(void)
{
    for (size_t i = 0; i < sound.q; i++)
        for (size_t k = 0; k < n_damages; k++) {
            copy_map(&damaged, &sound);
            damage(&damaged, k, i);
            const window windows[] = {whole_picture(damaged.m), {0, 0, 1, 1}, {0, 0, 0, 1}, {65535, 0, 1, 1}};
            memcpy(list, windows, sizeof windows);
            compare_list(&damaged, 16, side_of(damaged.m), 20);
            compare_list(&damaged, 16, 0, 0);
            compare_list(&damaged, 15, 0, 0);
        }
}

void group_lists_on_damaged_maps(void)
{
    for_small_maps(&sound, list_on_every_damage, 1);
}

/* ---- Group: vast lists ---- */

/* Of the same list: three windows take 3 cells of the border and 15 of the answer slice. */
static const struct {
    size_t n_keys, n_classes, n_windows, n_border, n_out;
    lutniorad_answer answer;
} vast_lists[] = {
    {7, 7, 12, VAST, 15, {0, 0, 3, 0}},
    {7, 7, 12, VAST + 2, 15, {0, 0, 3, 0}},
    {7, 7, 12, 3, VAST, {0, 0, 3, 0}},
    {7, 7, 12, 3, VAST + 14, {0, 0, 3, 0}},
    {7, 7, 12, VAST + 2, VAST + 14, {0, 0, 3, 0}},
    {7, 7, 12, VAST - 1, VAST - 1, {0, 0, 3, 0}},
    {7, 7, 12, 65536, 65536, {0, 0, 3, 0}},
    {7, 7, 12, 65538, 65550, {0, 0, 3, 0}},
    {7, 7, 0, VAST, VAST, {0, 0, 0, 0}},
    {7, 7, 12, VAST + 3, 14, {8, 15, 0, 0}},
    {7, 7, 12, 2, VAST + 15, {7, 3, 0, 0}},
    {7, 7, VAST - 4, 3, 1280, {25, 0, 0, 0}},
    {7, 7, VAST, 3, 15, {25, 0, 0, 0}},
    {7, 7, VAST + 1, 3, 15, {25, 0, 0, 0}},
    {7, 7, VAST + 12, 3, 15, {25, 0, 0, 0}},
    {7, 7, VAST + 12, 2, 14, {25, 0, 0, 0}},
    {7, 7, VAST + 12, VAST + 3, VAST + 15, {25, 0, 0, 0}},
    {7, 7, VAST + 1024, 3, 1280, {25, 0, 0, 0}},
    {7, 7, VAST + 1028, 3, 1280, {25, 0, 0, 0}},
    {VAST + 7, VAST + 7, 12, 3, 15, {2, 0, 0, 0}},
    {VAST + 7, 7, 12, 3, 15, {2, 0, 0, 0}},
    {7, VAST + 7, 12, 3, 15, {2, 0, 0, 0}},
    {VAST + 7, VAST + 7, VAST + 12, VAST + 3, VAST + 15, {2, 0, 0, 0}},
};

static void vast_list(size_t i)
{
    begin_list();
    given windows = {list, vast_lists[i].n_windows};
    given border = {NULL, vast_lists[i].n_border}, out = {NULL, vast_lists[i].n_out};
    require_stated(compare_slices(&sound, vast_lists[i].n_keys, vast_lists[i].n_classes, windows, border, out),
                   vast_lists[i].answer);
}

void group_vast_lists(void)
{
    for (size_t i = 0; i < COUNT(vast_lists); i++)
        if (begin_case())
            vast_list(i);
}

/* ---- Group: large lists ---- */

void try_many(const map *a)
{
    for (size_t i = 0; i < THIN_WINDOWS; i++)
        list[i] = thin_window(a->m, i);
    try_list(a, THIN_WINDOWS, side_of(a->m));
}

static void wide_list(void)
{
    for (size_t i = 0; i < WIDE_WINDOWS; i++)
        list[i] = wide_window(sound.m, i);
    try_list(&sound, WIDE_WINDOWS, side_of(sound.m));
}

/* Of the largest picture nearly all, between thin windows. */
static void largest_list(void)
{
    const window windows[] = {thin_window(12, 1), wide_window(12, 1), thin_window(12, 5)};
    memcpy(list, windows, sizeof windows);
    make_map_around(&sound, 12, windows[1], 2);
    try_list(&sound, COUNT(windows), 4096);
}

/* On maps of as many records as there can be. */
void group_large_lists(void)
{
    for (shape how = DEEP; how < SHAPES; how++)
        for (uint32_t m = 8; m <= 12; m += 4)
            if (begin_case()) {
                make_map(&sound, m, how, most_cuts(8));
                try_many(&sound);
                if (m == 8)
                    wide_list();
            }
    if (begin_case())
        largest_list();
}

/* ---- Group: random lists ---- */

/* Windows for the map at hand, of which some are empty or stick out. */
static void fill_list_at_random(size_t n, size_t most_pixels)
{
    for (size_t i = 0; i < n; i++) {
        list[i] = random_window(sound.m, most_pixels);
        size_t kind = below(12);
        if (kind == 0)
            list[i] = chosen_windows[below(CHOSEN_WINDOWS)];
        if (kind < 3)
            list[i].h = (uint16_t)near_length(list[i].h);
        if (kind < 4)
            list[i].w = (uint16_t)near_length(list[i].w);
    }
}

/* The first n windows of the list: on slices that are long enough, on some that may not be, and on the map damaged. */
static void try_list_at_random(size_t n)
{
    try_list(&sound, n, side_of(sound.m) + below(NEAR));
    size_t widest = compare_list(&sound, 4 * n, 0, CELLS * n).place; /* refused by 7, if some is inside the picture */
    size_t n_windows = near_length(4 * n), n_border = near_length(widest);
    compare_list(&sound, n_windows, n_border, near_length(CELLS * n));
    copy_map(&damaged, &sound);
    damage_at_random(&damaged);
    compare_list(&damaged, 4 * n, widest, CELLS * n);
}

/* On maps of many records there are few windows, since for each of them the independent program paints all records. */
static void random_list(void)
{
    make_random_map(&sound);
    size_t most = ((size_t)1 << 17) / sound.q, n = below((most < MOST_WINDOWS ? most : MOST_WINDOWS) + 1);
    fill_list_at_random(n + 1, (size_t)1 << 12);
    try_list_at_random(n);
}

static void random_small_list(void)
{
    uint32_t m = 3 + (uint32_t)below(3);
    make_map(&sound, m, (shape)below(SHAPES), below((most_cuts(m) >> below(8)) + 1));
    size_t n = below(20) == 0 ? MOST_WINDOWS : below(((size_t)MOST_WINDOWS >> below(8)) + 1);
    fill_list_at_random(n + 1, (size_t)1 << 2 * m);
    try_list_at_random(n);
}

void group_random_lists(void)
{
    for (int i = 0; i < 200; i++)
        if (begin_case())
            random_list();
    for (int i = 0; i < 600; i++)
        if (begin_case())
            random_small_list();
}
