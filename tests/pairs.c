#include "pairs.h"

#include "questions.h"

#include <stdio.h>
#include <string.h>

/* The case at hand: a sound map. */
static map sound;

/* ---- Windows by their edges ---- */

/* Rows or columns, from one on to before another. */
typedef struct {
    size_t from, to;
} span;

static span rows_of(window at)
{
    span s = {at.r0, at.r0 + (size_t)at.h};
    return s;
}

static span cols_of(window at)
{
    span s = {at.c0, at.c0 + (size_t)at.w};
    return s;
}

static window of_spans(span rows, span cols)
{
    window at = {(uint16_t)rows.from, (uint16_t)cols.from, (uint16_t)(rows.to - rows.from),
                 (uint16_t)(cols.to - cols.from)};
    return at;
}

static span around_both(span a, span b)
{
    span s = {a.from < b.from ? a.from : b.from, a.to > b.to ? a.to : b.to};
    return s;
}

/* Empty where they share nothing. */
static span in_both(span a, span b)
{
    size_t from = a.from > b.from ? a.from : b.from, to = a.to < b.to ? a.to : b.to;
    span s = {from, to > from ? to : from};
    return s;
}

static bool is_empty(span s)
{
    return s.from == s.to;
}

static size_t size(window at)
{
    return (size_t)at.h * at.w;
}

static bool are_same(window a, window b)
{
    return a.r0 == b.r0 && a.c0 == b.c0 && a.h == b.h && a.w == b.w;
}

/* Do they touch along a whole side of both? */
static bool touch_along_a_side(window a, window b)
{
    bool same_rows = a.r0 == b.r0 && a.h == b.h, same_cols = a.c0 == b.c0 && a.w == b.w;
    return (same_rows && a.c0 + a.w == b.c0) || (same_rows && b.c0 + b.w == a.c0) ||
           (same_cols && a.r0 + a.h == b.r0) || (same_cols && b.r0 + b.h == a.r0);
}

/* ---- What is asked of windows and their reports ---- */

typedef struct {
    uint32_t first; /* of the answer */
    uint32_t totals[CLASSES];
} report;

static const report nothing; /* as if it were of no pixel */

/* By the library, of a window inside the picture. It stands until the next one is asked for. */
static const report *ask_report(window at)
{
    static report last;
    lutniorad_answer answer = take_totals(&sound, at, last.totals);
    require(answer.refusal == 0, "a window inside the picture is refused");
    last.first = answer.first;
    return &last;
}

/* If it does not hold, these windows are shown too, since the last call may have been about another. */
static void require_of(const window *at, size_t n, bool holds, const char *otherwise)
{
    for (size_t i = 0; !holds && i < n; i++)
        printf("window %zu: r0 %d, c0 %d, h %d, w %d\n", i, at[i].r0, at[i].c0, at[i].h, at[i].w);
    require(holds, otherwise);
}

/* Two windows; what is from the least of their edges to the greatest, and from the greatest to the least. */
enum { ONE, OTHER, HULL, MEET, OF_PAIR };

typedef struct {
    window at[OF_PAIR];
    const report *reports[OF_PAIR];
} pair;

static pair pair_of(window a, window b)
{
    pair p = {{a, b, of_spans(around_both(rows_of(a), rows_of(b)), around_both(cols_of(a), cols_of(b))),
               of_spans(in_both(rows_of(a), rows_of(b)), in_both(cols_of(a), cols_of(b)))},
              {NULL, NULL, NULL, NULL}};
    return p;
}

static void require_pair(const pair *p, bool holds, const char *otherwise)
{
    require_of(p->at, OF_PAIR, holds, otherwise);
}

static bool cells_add_up(const pair *p)
{
    const report *const *r = p->reports;
    for (size_t k = 0; k < CLASSES; k++)
        if (r[ONE]->totals[k] + r[OTHER]->totals[k] != r[HULL]->totals[k] + r[MEET]->totals[k])
            return false;
    return true;
}

/* Sizes, answers and cells add up to those of hull and meet just where the union is a rectangle. */
static void require_sums(const pair *p, bool rectangle)
{
    const report *const *r = p->reports;
    size_t sizes = size(p->at[ONE]) + size(p->at[OTHER]), of_both = size(p->at[HULL]) + size(p->at[MEET]);
    uint32_t firsts = r[ONE]->first + r[OTHER]->first, firsts_of_both = r[HULL]->first + r[MEET]->first;
    require_pair(p, rectangle ? sizes == of_both : sizes < of_both,
                 rectangle ? "the union is a rectangle, and the sizes do not add up"
                           : "the union is no rectangle, and the sizes are not less");
    require_pair(p, rectangle ? firsts == firsts_of_both : firsts < firsts_of_both,
                 rectangle ? "the union is a rectangle, and the answers do not add up"
                           : "the union is no rectangle, and the answers are not less");
    require_pair(p, cells_add_up(p) == rectangle,
                 rectangle ? "the union is a rectangle, and the cells do not add up"
                           : "the union is no rectangle, and the cells add up");
}

/* ---- All windows of a small picture ---- */

/*
 * By number, from 1 on: the windows, their pixels, row by row from the lowest bit on, and their reports. Number 0 is of
 * no window: it has no pixel, and its report is all zeros.
 */
enum { LARGEST_M = 3, MOST_SIDE = 1 << LARGEST_M, STRETCHES = MOST_SIDE * (MOST_SIDE + 1) / 2, NO_NUMBER = 0 };
static window windows[1 + STRETCHES * STRETCHES];
static uint64_t pixels[COUNT(windows)];
static report reports[COUNT(windows)];
static size_t n_windows;

/* The number of each window stands in the first free place from one on that its pixels say. */
enum { PLACES = 1 << 12 };
static uint16_t numbers[PLACES];

static uint64_t pixels_of(window at)
{
    uint64_t set = 0;
    for (int row = at.r0; row < at.r0 + at.h; row++)
        for (int col = at.c0; col < at.c0 + at.w; col++)
            set |= (uint64_t)1 << (MOST_SIDE * row + col);
    return set;
}

/* Where the number of the window that has these pixels stands, or a free place. */
static size_t place_of(uint64_t set)
{
    size_t place = (size_t)(set * 0x9E3779B97F4A7C15u >> 52);
    while (numbers[place] != NO_NUMBER && pixels[numbers[place]] != set)
        place = (place + 1) % PLACES;
    return place;
}

/* Of the window that has just these pixels, or NO_NUMBER where there is none. */
static size_t number_of(uint64_t set)
{
    return numbers[place_of(set)];
}

/* All windows of the map at hand. */
static void list_windows(void)
{
    const size_t stretches = side_of(sound.m) * ((size_t)side_of(sound.m) + 1) / 2;
    n_windows = 0;
    memset(numbers, 0, sizeof numbers);
    for (size_t i = 0; i < n_small_windows(sound.m); i++) {
        window at = small_window(sound.m, i);
        if (!is_inside(at, sound.m))
            continue;
        windows[++n_windows] = at;
        pixels[n_windows] = pixels_of(at);
        reports[n_windows] = *ask_report(at);
        numbers[place_of(pixels[n_windows])] = (uint16_t)n_windows;
    }
    require(n_windows == stretches * stretches, "some windows of the picture are not listed");
}

/* As ask_report does, of a window that is listed. */
static const report *listed_report(window at)
{
    return &reports[number_of(pixels_of(at))];
}

/* Small maps, and some of m = 3: of every shape, and of pixels that have a class each. */
static void for_listed_maps(void (*run)(void))
{
    for_small_maps(&sound, run, PAINTS);
    for (shape how = DEEP; how < SHAPES; how++)
        if (begin_case()) {
            make_map(&sound, LARGEST_M, how, below(most_cuts(LARGEST_M) + 1));
            run();
        }
    if (begin_case()) {
        make_map(&sound, LARGEST_M, EVEN, most_cuts(LARGEST_M));
        paint(&sound, RISING);
        run();
    }
}

/* ---- Group: small pairs ---- */

/* Union and intersection are found by their pixels: a number, if that is a window. */
static void try_small_pair(size_t i, size_t k)
{
    const uint64_t in_some = pixels[i] | pixels[k], in_each = pixels[i] & pixels[k];
    const size_t whole = number_of(in_some), shared = number_of(in_each);
    const bool rectangle = whole != NO_NUMBER;
    pair p = pair_of(windows[i], windows[k]);
    if (rectangle)
        require_pair(&p, are_same(windows[whole], p.at[HULL]), "the union is another window than the hull");
    if (in_each == 0)
        require_pair(&p, rectangle == touch_along_a_side(windows[i], windows[k]),
                     "windows that share nothing make a rectangle and touch along no side, or the other way round");
    require_pair(&p, in_each == 0 ? size(p.at[MEET]) == 0 : are_same(windows[shared], p.at[MEET]),
                 "what both windows have is something else than the meet");
    p.reports[ONE] = &reports[i];
    p.reports[OTHER] = &reports[k];
    p.reports[HULL] = rectangle ? &reports[whole] : listed_report(p.at[HULL]);
    p.reports[MEET] = &reports[shared];
    require_sums(&p, rectangle);
}

static void try_every_pair(void)
{
    list_windows();
    for (size_t i = 1; i <= n_windows; i++)
        for (size_t k = 1; k <= n_windows; k++)
            try_small_pair(i, k);
}

void group_small_pairs(void)
{
    for_listed_maps(try_every_pair);
}

/* ---- Windows that part a window ---- */

/* The window is the first in the list, and its parts are behind it. */
enum { MOST_PARTS = MOST_SIDE * MOST_SIDE, PARTS_OF_PINWHEEL = 5 };
static window parted[1 + MOST_PARTS];
static size_t n_parts;

static void begin_parts(window at)
{
    parted[0] = at;
    n_parts = 0;
}

static void add_part(window at)
{
    require(n_parts < MOST_PARTS, "there are too many parts");
    parted[++n_parts] = at;
}

/* The reports of the parts add up to that of the window, which is asked for last. */
static void try_parts(const report *(*report_of)(window))
{
    report sum = nothing;
    for (size_t i = 1; i <= n_parts; i++) {
        const report *of_part = report_of(parted[i]);
        sum.first += of_part->first;
        for (size_t k = 0; k < CLASSES; k++)
            sum.totals[k] += of_part->totals[k];
    }
    require_of(parted, 1 + n_parts, memcmp(&sum, report_of(parted[0]), sizeof sum) == 0,
               "the reports of the parts do not add up to that of the window");
}

/* Parts of so many rows and columns, and what is left of them at the edges. */
static void part_by_grid(window at, size_t h, size_t w)
{
    const span rows = rows_of(at), cols = cols_of(at);
    begin_parts(at);
    for (size_t row = rows.from; row < rows.to; row += h)
        for (size_t col = cols.from; col < cols.to; col += w) {
            span in_rows = {row, row + h}, in_cols = {col, col + w};
            add_part(of_spans(in_both(in_rows, rows), in_both(in_cols, cols)));
        }
}

/*
 * Four parts about a middle, each along one side of the window up to the next part: no straight cut through the window
 * leaves them whole. They go round one way or the other. Of the four edges of the rows, which are the window's and the
 * middle's, each part is between two, and so with the columns.
 */
static const struct {
    uint8_t top, bottom, left, right;
} pinwheels[][PARTS_OF_PINWHEEL] = {
    {{0, 1, 0, 2}, {0, 2, 2, 3}, {2, 3, 1, 3}, {1, 3, 0, 1}, {1, 2, 1, 2}},
    {{0, 1, 1, 3}, {1, 3, 2, 3}, {2, 3, 0, 2}, {0, 2, 0, 1}, {1, 2, 1, 2}},
};

static void part_by_pinwheel(window at, window middle, size_t way)
{
    const size_t rows[] = {rows_of(at).from, rows_of(middle).from, rows_of(middle).to, rows_of(at).to};
    const size_t cols[] = {cols_of(at).from, cols_of(middle).from, cols_of(middle).to, cols_of(at).to};
    begin_parts(at);
    for (size_t i = 0; i < PARTS_OF_PINWHEEL; i++) {
        span in_rows = {rows[pinwheels[way][i].top], rows[pinwheels[way][i].bottom]};
        span in_cols = {cols[pinwheels[way][i].left], cols[pinwheels[way][i].right]};
        add_part(of_spans(in_rows, in_cols));
    }
}

/* Cuts in two, and the parts again, into up to so many. */
static void cut_at_random(window at, size_t most)
{
    span rows = rows_of(at), cols = cols_of(at);
    span *along = at.w == 1 || (at.h > 1 && below(2) == 0) ? &rows : &cols;
    const size_t to = along->to, length = to - along->from;
    if (most == 1 || length == 1) {
        add_part(at);
        return;
    }
    const size_t cut = along->from + 1 + below(length - 1), share = 1 + below(most - 1);
    along->to = cut;
    cut_at_random(of_spans(rows, cols), share);
    along->from = cut;
    along->to = to;
    cut_at_random(of_spans(rows, cols), most - share);
}

/* ---- Group: small parts ---- */

/* Every grid, of which some are the single rows, the single columns and the pixels. */
static void try_every_grid(window at)
{
    for (size_t h = 1; h <= at.h; h++)
        for (size_t w = 1; w <= at.w; w++) {
            part_by_grid(at, h, w);
            try_parts(listed_report);
        }
}

static bool lies_in_the_midst(span inner, span outer)
{
    return outer.from < inner.from && inner.to < outer.to;
}

static void try_every_pinwheel(window at)
{
    for (size_t i = 1; i <= n_windows; i++) {
        const window middle = windows[i];
        if (!lies_in_the_midst(rows_of(middle), rows_of(at)) || !lies_in_the_midst(cols_of(middle), cols_of(at)))
            continue;
        for (size_t way = 0; way < COUNT(pinwheels); way++) {
            part_by_pinwheel(at, middle, way);
            try_parts(listed_report);
        }
    }
}

static void part_every_window(void)
{
    list_windows();
    for (size_t i = 1; i <= n_windows; i++) {
        try_every_grid(windows[i]);
        try_every_pinwheel(windows[i]);
    }
}

void group_small_parts(void)
{
    for_listed_maps(part_every_window);
}

/* ---- Group: random pairs ---- */

/* How the rows of a second window lie to those of a first, and so with the columns; each also mirrored. */
typedef enum {
    SAME,
    TOUCHING,
    APART,
    OVERLAPPING,   /* neither has all of the other */
    INSIDE,        /* the first goes on at both ends */
    ENDING_INSIDE, /* at one end alone */
    AROUND,        /* the second goes on at both ends */
    ENDING_OUTSIDE,
    RELATIONS
} relation;

/* How often the rows lay so, and the columns so. */
static size_t met[RELATIONS][RELATIONS];

static span mirrored(span s, size_t side)
{
    span m = {side - s.to, side - s.from};
    return m;
}

/*
 * Draws a span that lies so to another, behind it where it is not on both sides. It reaches no further beyond it than
 * the other is long and two more, so that both together are not much larger. False where there is no room for it.
 */
static bool draw_behind(span a, size_t side, relation how, span *drawn)
{
    const size_t reach = a.to - a.from + 2, least = a.from > reach ? a.from - reach : 0;
    const size_t beyond = (a.to + reach < side ? a.to + reach : side) + 1;
    const struct {
        span from, to; /* of these, and the second beyond the first */
    } edges[RELATIONS] = {
        [SAME] = {{a.from, a.from + 1}, {a.to, a.to + 1}},
        [TOUCHING] = {{a.to, a.to + 1}, {a.to + 1, beyond}},
        [APART] = {{a.to + 1, beyond - 1}, {a.to + 2, beyond}},
        [OVERLAPPING] = {{a.from + 1, a.to}, {a.to + 1, beyond}},
        [INSIDE] = {{a.from + 1, a.to - 1}, {a.from + 2, a.to}},
        [ENDING_INSIDE] = {{a.from, a.from + 1}, {a.from + 1, a.to}},
        [AROUND] = {{least, a.from}, {a.to + 1, beyond}},
        [ENDING_OUTSIDE] = {{a.from, a.from + 1}, {a.to + 1, beyond}},
    };
    const span from = edges[how].from, to = edges[how].to;
    if (from.from >= from.to || to.from >= to.to)
        return false;
    drawn->from = from.from + below(from.to - from.from);
    const size_t first = drawn->from < to.from ? to.from : drawn->from + 1;
    drawn->to = first + below(to.to - first);
    return true;
}

/* Behind it or before it. */
static bool draw(span a, size_t side, relation how, span *drawn)
{
    if (below(2) == 0)
        return draw_behind(a, side, how, drawn);
    if (!draw_behind(mirrored(a, side), side, how, drawn))
        return false;
    *drawn = mirrored(*drawn, side);
    return true;
}

static bool lies_in(relation how)
{
    return how == SAME || how == INSIDE || how == ENDING_INSIDE;
}

static bool lies_around(relation how)
{
    return how == SAME || how == AROUND || how == ENDING_OUTSIDE;
}

static bool lies_beside(relation how)
{
    return how == TOUCHING || how == APART;
}

static bool make_a_rectangle(relation rows, relation cols)
{
    return (rows == SAME && cols != APART) || (cols == SAME && rows != APART) || (lies_in(rows) && lies_in(cols)) ||
           (lies_around(rows) && lies_around(cols));
}

/* On the map at hand. */
static void try_pair(window a, window b, bool rectangle)
{
    static report asked[OF_PAIR];
    pair p = pair_of(a, b);
    for (size_t i = 0; i < OF_PAIR; i++) {
        asked[i] = size(p.at[i]) == 0 ? nothing : *ask_report(p.at[i]);
        p.reports[i] = &asked[i];
    }
    require_sums(&p, rectangle);
}

/* With a window that lies to this one in some way, if there is room for it. */
static void try_pair_with(window at)
{
    const relation by_rows = (relation)below(RELATIONS), by_cols = (relation)below(RELATIONS);
    span rows, cols;
    if (!draw(rows_of(at), side_of(sound.m), by_rows, &rows) || !draw(cols_of(at), side_of(sound.m), by_cols, &cols))
        return;
    met[by_rows][by_cols]++;
    try_pair(at, of_spans(rows, cols), make_a_rectangle(by_rows, by_cols));
    require(is_empty(in_both(rows_of(at), rows)) == lies_beside(by_rows) &&
                is_empty(in_both(cols_of(at), cols)) == lies_beside(by_cols),
            "a window that was drawn to share rows or columns with another shares none, or the other way round");
}

static void random_pairs(void)
{
    enum { PAIRS_WITH_WINDOW = 8 };
    make_random_map(&sound);
    for (size_t i = 0; i < WINDOWS_ON_MAPS; i++) {
        window at = random_window_on(&sound, i, (size_t)1 << 12);
        for (int k = 0; k < PAIRS_WITH_WINDOW; k++)
            try_pair_with(at);
    }
}

/* The largest picture: its columns before one, and those from another on, where some may be in both. */
static void largest_pair(void)
{
    make_map(&sound, LUTNIORAD_MOST_M, RAGGED, most_cuts(8));
    const span rows = rows_of(whole_picture(sound.m)), all = cols_of(whole_picture(sound.m));
    const size_t end = 1 + below(all.to - 1);
    const span before = {0, end}, behind = {below(end + 1), all.to};
    try_pair(of_spans(rows, before), of_spans(rows, behind), true);
}

/* Where all cases were run, each of the relations was met with each. */
void group_random_pairs(void)
{
    enum { CASES = 300 };
    int run = 0;
    memset(met, 0, sizeof met);
    for (int i = 0; i < CASES; i++)
        if (begin_case()) {
            random_pairs();
            run++;
        }
    for (size_t i = 0; run == CASES && i < RELATIONS * RELATIONS; i++)
        require(met[i / RELATIONS][i % RELATIONS] > 0, "some way in which two windows can lie was not met");
    if (begin_case())
        largest_pair();
}

/* ---- Group: random parts ---- */

/* On the map at hand. */
static void part_at_random(window at)
{
    enum { MOST_RANDOM_PARTS = 20 };
    span rows, cols;
    begin_parts(at);
    cut_at_random(at, 1 + below(MOST_RANDOM_PARTS));
    try_parts(ask_report);
    if (!draw(rows_of(at), side_of(sound.m), INSIDE, &rows) || !draw(cols_of(at), side_of(sound.m), INSIDE, &cols))
        return;
    part_by_pinwheel(at, of_spans(rows, cols), below(COUNT(pinwheels)));
    try_parts(ask_report);
}

static void random_parts(void)
{
    make_random_map(&sound);
    for (size_t i = 0; i < WINDOWS_ON_MAPS; i++)
        part_at_random(random_window_on(&sound, i, (size_t)1 << 14));
}

void group_random_parts(void)
{
    for (int i = 0; i < 150; i++)
        if (begin_case())
            random_parts();
}
