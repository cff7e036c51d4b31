#include "sparse.h"

#include "gaps.h"
#include "questions.h"

#include <string.h>

/* The case at hand: a sparse map, the same with its gaps filled, and one that need not be sound. */
static map sparse, filled, damaged;
static uint8_t file[ROOM_FOR_FILE];

/* The questions on sparse maps. */
static const operation *const asked_of_sparse[] = {&SPARSE_OPEN, &SPARSE_EXIST, &SPARSE_REPORT, &SPARSE_SELECT};

/* ---- The calls without a window ---- */

static lutniorad_answer check(const map *a, size_t n_keys, size_t n_classes)
{
    call c = {&SPARSE_CHECK, a->m, NO_TILE, NO_WINDOW, NO_CLASS, {{a->keys, n_keys}, {a->classes, n_classes}}};
    return compare(c);
}

static lutniorad_answer read_file(size_t n, size_t n_keys, size_t n_classes)
{
    call c = {&SPARSE_READ, 0, NO_TILE, NO_WINDOW, NO_CLASS, {{file, n}, {NULL, n_keys}, {NULL, n_classes}}};
    return compare(c);
}

static lutniorad_answer write_file(const map *a, size_t n_keys, size_t n_classes, size_t n_out)
{
    given keys = {a->keys, n_keys}, classes = {a->classes, n_classes}, out = {NULL, n_out};
    call c = {&SPARSE_WRITE, a->m, NO_TILE, NO_WINDOW, NO_CLASS, {keys, classes, out}};
    return compare(c);
}

/* ---- One window on the sparse map at hand ---- */

/* The totals of the window, over its background. */
static uint32_t totals[CLASSES];

/* Where the gaps were filled: plain report says the same of the map so got. */
static void require_as_filled(window at)
{
    uint32_t of_filled[CLASSES];
    require(take_totals(&filled, at, of_filled).refusal == 0, "a map whose gaps are filled is refused");
    require(memcmp(of_filled, totals, sizeof of_filled) == 0, "where the gaps are filled, there are other totals");
}

/* About n classes. Where the gaps are filled it is with the same background. */
static void try_window_over(uint32_t tile, window at, uint8_t background, const uint8_t *asked, size_t n,
                            bool is_filled)
{
    if (try_sparse(&sparse, tile, at, background, asked, n, totals).refusal != 0)
        return;
    count_window(&sparse, tile, at, background);
    if (!is_filled)
        return;
    require_as_filled(at);
    count_existence(&sparse, filled.q > sparse.q, background, totals);
}

/* The same window with another tile. Report and exist, which take none, are not asked again. */
static void try_other_tile(uint32_t tile, window at, uint8_t background, const uint8_t *asked, size_t n)
{
    try_sparse_tile(&sparse, tile, at, background, asked, n, totals);
    count_window(&sparse, tile, at, background);
}

void try_thinned(const map *a, window at)
{
    const uint8_t of_class = some_class(a);
    copy_map(&sparse, a);
    thin_out(&sparse, 1, 2);
    try_sparse(&sparse, some_tile(a->m, at), at, of_class, &of_class, 1, totals);
}

/* ---- Group: sparse maps written out ---- */

enum { LEFT_OUT, NOTHING, CORNER, QUARTER, APART, PIXEL, NO_PIXEL };

static const struct {
    uint32_t m;
    size_t q;
    uint32_t keys[4];
    uint8_t classes[4];
} stated_maps[] = {
    [LEFT_OUT] = {2, 4, {11, 12, 13, 20}, {2, 2, 3, 2}}, /* the reference map without class 1 */
    [NOTHING] = {2, 0, {0}, {0}},
    [CORNER] = {2, 1, {6}, {1}},
    [QUARTER] = {2, 1, {5}, {1}},
    [APART] = {2, 2, {6, 20}, {1, 2}},
    [PIXEL] = {0, 1, {0}, {1}},
    [NO_PIXEL] = {0, 0, {0}, {0}},
};

static void make_stated(map *a, size_t number)
{
    copy_records(a, stated_maps[number].m, stated_maps[number].q, stated_maps[number].keys,
                 stated_maps[number].classes);
}

static const struct {
    const operation *operation;
    int map;
    uint32_t tile;
    window at;
    uint8_t background, of_class;
    size_t n_border, n_out;
    lutniorad_answer answer;
    uint32_t cells[24]; /* the openings, the keys, or the first totals, all others being 0 */
    uint16_t border;    /* every cell in the end, or 0 where it is not written */
} stated_answers[] = {
    {&SPARSE_OPEN, LEFT_OUT, 2, {0, 1, 3, 3}, 0, 0, 3, 15, {0, 0, 5, 4},
     {7, 0, 0, 10, 0, 3, 9, 0, 0, 17, 0, 0, 21, 3, 1}, 3},
    {&SPARSE_OPEN, LEFT_OUT, 2, {0, 1, 3, 3}, 0, 0, 3, 14, {8, 15, 0, 0}, {0}, 3},
    {&SPARSE_OPEN, LEFT_OUT, 2, {0, 1, 3, 3}, 0, 0, 2, 14, {7, 3, 0, 0}, {0}, 0},
    {&SPARSE_OPEN, LEFT_OUT, 0, {0, 1, 3, 3}, 0, 0, 3, 24, {0, 0, 8, 4},
     {7, 0, 0, 11, 0, 1, 12, 1, 1, 9, 0, 0, 13, 2, 1, 14, 0, 0, 17, 0, 0, 21, 3, 1}, 3},
    {&SPARSE_OPEN, LEFT_OUT, 0, {0, 1, 3, 3}, 0, 0, 3, 23, {8, 24, 0, 0}, {0}, 3},
    {&SPARSE_OPEN, LEFT_OUT, 2, {0, 0, 4, 4}, 0, 0, 4, 3, {0, 0, 1, 4}, {0, 0, 4}, 4},
    {&SPARSE_OPEN, LEFT_OUT, 1, {0, 0, 4, 4}, 0, 0, 4, 12, {0, 0, 4, 4}, {5, 0, 0, 10, 0, 3, 15, 0, 0, 20, 3, 1}, 4},
    {&SPARSE_OPEN, LEFT_OUT, 3, {0, 0, 4, 4}, 0, 0, 4, 3, {17, 0, 0, 0}, {0}, 0},
    {&SPARSE_OPEN, LEFT_OUT, 2, {0, 0, 5, 4}, 0, 0, 4, 3, {6, 0, 0, 0}, {0}, 0},
    {&SPARSE_OPEN, NOTHING, 2, {0, 0, 4, 4}, 0, 0, 4, 3, {0, 0, 1, 0}, {0, 0, 0}, 4},
    {&SPARSE_OPEN, NOTHING, 2, {0, 0, 4, 4}, 0, 0, 4, 2, {8, 3, 0, 0}, {0}, 4},
    {&SPARSE_OPEN, NOTHING, 2, {0, 1, 3, 3}, 0, 0, 3, 18, {0, 0, 6, 0},
     {7, 0, 0, 10, 0, 0, 9, 0, 0, 17, 0, 0, 21, 0, 0, 22, 0, 0}, 3},
    {&SPARSE_OPEN, CORNER, 2, {0, 0, 4, 4}, 0, 0, 4, 3, {0, 0, 1, 1}, {0, 0, 1}, 4}, /* a record inside the block */
    {&SPARSE_OPEN, QUARTER, 2, {0, 1, 3, 1}, 0, 0, 1, 6, {0, 0, 2, 1}, {7, 0, 1, 17, 0, 0}, 3}, /* 9 is skipped */
    {&SPARSE_OPEN, APART, 2, {2, 2, 2, 2}, 0, 0, 2, 3, {0, 0, 1, 1}, {20, 1, 1}, 4},
    {&SPARSE_OPEN, APART, 2, {0, 2, 2, 2}, 0, 0, 2, 3, {0, 0, 1, 0}, {10, 0, 0}, 2}, /* between the two records */
    {&SPARSE_OPEN, PIXEL, 0, {0, 0, 1, 1}, 0, 0, 1, 3, {0, 0, 1, 1}, {0, 0, 1}, 1},
    {&SPARSE_OPEN, NO_PIXEL, 0, {0, 0, 1, 1}, 0, 0, 1, 3, {0, 0, 1, 0}, {0, 0, 0}, 1},
    {&SPARSE_OPEN, NO_PIXEL, 1, {0, 0, 1, 1}, 0, 0, 1, 3, {17, 0, 0, 0}, {0}, 0},
    {&SPARSE_SELECT, LEFT_OUT, 2, {0, 1, 3, 3}, 1, 1, 3, 4, {0, 0, 4, 0}, {7, 14, 9, 17}, 3},
    {&SPARSE_SELECT, LEFT_OUT, 2, {0, 1, 3, 3}, 1, 1, 3, 3, {8, 4, 0, 0}, {0}, 3},
    {&SPARSE_SELECT, LEFT_OUT, 2, {0, 1, 3, 3}, 1, 1, 2, 3, {7, 3, 0, 0}, {0}, 0},
    {&SPARSE_SELECT, LEFT_OUT, 2, {0, 1, 3, 3}, 1, 2, 3, 4, {0, 0, 4, 0}, {11, 12, 21, 22}, 3},
    {&SPARSE_SELECT, LEFT_OUT, 2, {0, 1, 3, 3}, 0, 1, 3, 0, {0, 0, 0, 0}, {0}, 3},
    {&SPARSE_SELECT, LEFT_OUT, 2, {0, 0, 4, 4}, 1, 1, 4, 3, {0, 0, 3, 0}, {5, 14, 15}, 4},
    {&SPARSE_SELECT, LEFT_OUT, 2, {0, 0, 4, 4}, 2, 2, 4, 6, {0, 0, 6, 0}, {5, 11, 12, 14, 15, 20}, 4},
    {&SPARSE_SELECT, LEFT_OUT, 2, {0, 0, 4, 4}, 255, 255, 4, 3, {0, 0, 3, 0}, {5, 14, 15}, 4},
    {&SPARSE_SELECT, LEFT_OUT, 2, {0, 0, 4, 4}, 255, 3, 4, 1, {0, 0, 1, 0}, {13}, 4},
    {&SPARSE_SELECT, LEFT_OUT, 3, {0, 0, 4, 4}, 255, 3, 4, 1, {17, 0, 0, 0}, {0}, 0},
    {&SPARSE_SELECT, NOTHING, 2, {0, 1, 3, 3}, 7, 7, 3, 6, {0, 0, 6, 0}, {7, 10, 9, 17, 21, 22}, 3},
    {&SPARSE_SELECT, NOTHING, 2, {0, 1, 3, 3}, 7, 8, 3, 0, {0, 0, 0, 0}, {0}, 3},
    {&SPARSE_SELECT, NOTHING, 2, {0, 0, 4, 4}, 7, 7, 4, 1, {0, 0, 1, 0}, {0}, 4},
    {&SPARSE_SELECT, CORNER, 2, {0, 0, 4, 4}, 1, 1, 4, 7, {0, 0, 7, 0}, {6, 7, 8, 9, 10, 15, 20}, 4}, /* not joined */
    {&SPARSE_SELECT, CORNER, 2, {0, 0, 4, 4}, 0, 0, 4, 6, {0, 0, 6, 0}, {7, 8, 9, 10, 15, 20}, 4},
    {&SPARSE_SELECT, CORNER, 1, {0, 0, 4, 4}, 0, 0, 4, 6, {0, 0, 6, 0}, {7, 8, 9, 10, 15, 20}, 4},
    {&SPARSE_SELECT, CORNER, 0, {0, 0, 2, 4}, 0, 0, 4, 7, {0, 0, 7, 0}, {7, 11, 12, 8, 9, 13, 14}, 2},
    {&SPARSE_SELECT, QUARTER, 2, {0, 1, 3, 1}, 1, 1, 1, 3, {0, 0, 3, 0}, {7, 9, 17}, 3},
    {&SPARSE_SELECT, APART, 2, {0, 0, 4, 4}, 2, 2, 4, 6, {0, 0, 6, 0}, {7, 8, 9, 10, 15, 20}, 4},
    {&SPARSE_SELECT, PIXEL, 0, {0, 0, 1, 1}, 4, 4, 1, 0, {0, 0, 0, 0}, {0}, 1},
    {&SPARSE_SELECT, NO_PIXEL, 0, {0, 0, 1, 1}, 4, 4, 1, 1, {0, 0, 1, 0}, {0}, 1},
    {&SPARSE_REPORT, LEFT_OUT, 0, {0, 1, 3, 3}, 1, 0, 3, 256, {0, 0, 9, 0}, {0, 4, 4, 1}, 3},
    {&SPARSE_REPORT, LEFT_OUT, 0, {0, 1, 3, 3}, 0, 0, 3, 256, {0, 0, 9, 0}, {4, 0, 4, 1}, 3},
    {&SPARSE_REPORT, LEFT_OUT, 0, {0, 1, 3, 3}, 2, 0, 3, 256, {0, 0, 9, 0}, {0, 0, 8, 1}, 3},
    {&SPARSE_REPORT, LEFT_OUT, 0, {0, 1, 3, 3}, 2, 0, 3, 255, {8, 256, 0, 0}, {0}, 3},
    {&SPARSE_REPORT, LEFT_OUT, 0, {0, 1, 3, 3}, 2, 0, 2, 255, {7, 3, 0, 0}, {0}, 0},
    {&SPARSE_REPORT, NOTHING, 0, {0, 1, 3, 3}, 3, 0, 3, 256, {0, 0, 9, 0}, {0, 0, 0, 9}, 3},
    {&SPARSE_REPORT, NO_PIXEL, 0, {0, 0, 1, 1}, 3, 0, 1, 256, {0, 0, 1, 0}, {0, 0, 0, 1}, 1},
    {&SPARSE_EXIST, LEFT_OUT, 0, {0, 1, 3, 3}, 1, 1, 3, 0, {0, 0, LUTNIORAD_YES, 0}, {0}, 3},
    {&SPARSE_EXIST, LEFT_OUT, 0, {0, 1, 3, 3}, 0, 1, 3, 0, {0, 0, LUTNIORAD_NO, 0}, {0}, 3},
    {&SPARSE_EXIST, LEFT_OUT, 0, {0, 1, 3, 3}, 255, 1, 3, 0, {0, 0, LUTNIORAD_CANNOT_TELL, 0}, {0}, 3},
    {&SPARSE_EXIST, LEFT_OUT, 0, {0, 1, 3, 3}, 255, 2, 3, 0, {0, 0, LUTNIORAD_YES, 0}, {0}, 3},
    {&SPARSE_EXIST, LEFT_OUT, 0, {0, 1, 3, 3}, 255, 255, 3, 0, {0, 0, LUTNIORAD_YES, 0}, {0}, 3},
    {&SPARSE_EXIST, LEFT_OUT, 0, {0, 1, 3, 3}, 1, 255, 3, 0, {0, 0, LUTNIORAD_NO, 0}, {0}, 3},
    {&SPARSE_EXIST, LEFT_OUT, 0, {2, 2, 2, 2}, 5, 5, 2, 0, {0, 0, LUTNIORAD_NO, 0}, {0}, 4}, /* gaps elsewhere */
    {&SPARSE_EXIST, LEFT_OUT, 0, {2, 2, 2, 2}, 255, 5, 2, 0, {0, 0, LUTNIORAD_NO, 0}, {0}, 4},
    {&SPARSE_EXIST, LEFT_OUT, 0, {2, 2, 2, 2}, 255, 5, 1, 0, {7, 2, 0, 0}, {0}, 0},
    {&SPARSE_EXIST, NOTHING, 0, {0, 1, 3, 3}, 7, 7, 3, 0, {0, 0, LUTNIORAD_YES, 0}, {0}, 3},
    {&SPARSE_EXIST, NOTHING, 0, {0, 1, 3, 3}, 7, 8, 3, 0, {0, 0, LUTNIORAD_NO, 0}, {0}, 3},
    {&SPARSE_EXIST, NOTHING, 0, {0, 1, 3, 3}, 255, 8, 3, 0, {0, 0, LUTNIORAD_CANNOT_TELL, 0}, {0}, 3},
};

/* All cells of an answer as they are written out. */
static void require_stated_cells(size_t i)
{
    uint32_t cells[CLASSES] = {0};
    const operation *o = stated_answers[i].operation;
    const lutniorad_answer stated = stated_answers[i].answer;
    const size_t n = o == &SPARSE_OPEN ? 3 * (size_t)stated.first : o == &SPARSE_SELECT ? stated.first : CLASSES;
    if (stated.refusal != 0 || o == &SPARSE_EXIST)
        return;
    memcpy(cells, stated_answers[i].cells, sizeof stated_answers[i].cells);
    require(memcmp(left(3), cells, n * sizeof *cells) == 0, "other cells than those written out");
}

static void stated_answer(size_t i)
{
    const uint32_t about = over(stated_answers[i].background, stated_answers[i].of_class);
    make_stated(&sparse, (size_t)stated_answers[i].map);
    question q = {stated_answers[i].operation, &sparse, stated_answers[i].tile, stated_answers[i].at, about};
    require_stated(ask(q, stated_answers[i].n_border, stated_answers[i].n_out), stated_answers[i].answer);
    require_stated_cells(i);
    require_border(q.at, stated_answers[i].border);
}

static const struct {
    uint32_t m;
    size_t q;
    uint32_t keys[4];
    lutniorad_answer answer;
} stated_checks[] = {
    {2, 4, {11, 12, 13, 20}, {0, 0, 4, 0}},
    {2, 3, {6, 8, 24}, {0, 0, 3, 0}},
    {2, 1, {24}, {0, 0, 1, 0}},
    {2, 0, {0}, {0, 0, 0, 0}},
    {0, 0, {0}, {0, 0, 0, 0}},
    {0, 1, {0}, {0, 0, 1, 0}},
    {0, 2, {0, 0}, {4, 1, 0, 0}},
    {12, 0, {0}, {0, 0, 0, 0}},
    {13, 0, {0}, {1, 0, 0, 0}},
    {2, 2, {5, 7}, {4, 1, 0, 0}},      /* a pixel of the block before */
    {2, 2, {7, 5}, {4, 1, 0, 0}},      /* the block around the pixel before */
    {2, 2, {12, 11}, {4, 1, 0, 0}},    /* not in their order */
    {2, 2, {24, 24}, {4, 1, 0, 0}},    /* twice */
    {2, 2, {20, 0}, {4, 1, 0, 0}},     /* the picture was full */
    {2, 3, {6, 12, 11}, {4, 2, 0, 0}}, /* behind gaps */
    {2, 2, {6, 25}, {3, 1, 0, 0}},     /* 5^m */
    {2, 3, {6, 1, 6}, {3, 1, 0, 0}},   /* digits 0 1 */
};

/* Refused in their order, of the map without class 1. Its slices may be cut, and at m = 3 its first key names none. */
static const struct {
    uint32_t m, tile;
    size_t n_keys, n_classes;
    window at;
    size_t n_border;
    uint32_t refusal, place;
} stated_orders[] = {
    {13, 14, 4, 3, {4, 4, 0, 0}, 0, 1, 0}, {2, 3, 4, 3, {4, 4, 0, 0}, 0, 17, 0}, {2, 2, 4, 3, {4, 4, 0, 0}, 0, 2, 0},
    {2, 2, 3, 4, {4, 4, 0, 0}, 0, 2, 0},   {2, 2, 0, 1, {4, 4, 0, 0}, 0, 2, 0},  {2, 2, 1, 0, {4, 4, 0, 0}, 0, 2, 0},
    {3, 4, 4, 4, {4, 4, 0, 0}, 0, 17, 0},  {3, 3, 4, 4, {4, 4, 0, 0}, 0, 3, 0},  {2, 2, 4, 4, {4, 4, 0, 0}, 0, 6, 0},
    {2, 2, 0, 0, {4, 4, 0, 0}, 0, 6, 0},   {2, 2, 4, 4, {0, 1, 3, 3}, 2, 7, 3},  {2, 2, 0, 0, {0, 1, 3, 3}, 2, 7, 3},
    {2, 2, 1, 1, {0, 1, 3, 3}, 2, 7, 3},
};

static void stated_order(size_t i)
{
    make_stated(&sparse, LEFT_OUT);
    sparse.m = stated_orders[i].m;
    for (size_t k = 0; k < COUNT(asked_of_sparse); k++) {
        const bool takes_tile = asked_of_sparse[k] == &SPARSE_OPEN || asked_of_sparse[k] == &SPARSE_SELECT;
        question q = {asked_of_sparse[k], &sparse, stated_orders[i].tile, stated_orders[i].at, over(1, 1)};
        lutniorad_answer answer =
            ask_slices(q, stated_orders[i].n_keys, stated_orders[i].n_classes, stated_orders[i].n_border, 0);
        if (takes_tile || stated_orders[i].refusal != LUTNIORAD_BAD_TILE)
            require_numbers(answer, stated_orders[i].refusal, stated_orders[i].place, 0, 0);
    }
}

/* The file of no record, byte by byte, and what its length and header decide. */
static void stated_file(void)
{
    static const uint8_t bytes[HEADER] = {20, 0, 0, 0, 2, 0, 0, 0, 0, 0, 0, 0, 20, 0, 0, 0, 20, 0, 0, 0};
    static const struct {
        size_t field, n;
        uint32_t value;
        lutniorad_answer answer;
    } spoiled_fields[] = {
        {0, 20, 20, {0, 0, 2, 0}},    {0, 20, 21, {9, 0, 0, 0}}, {0, 19, 19, {9, 0, 0, 0}},
        {0, 21, 21, {9, 8, 0, 0}},    {0, 25, 25, {9, 8, 0, 0}}, {1, 20, 13, {1, 0, 0, 0}},
        {1, 20, 12, {0, 0, 12, 0}},   {2, 20, 1, {9, 8, 0, 0}},  {2, 20, 65536, {9, 8, 0, 0}},
        {2, 20, 65537, {2, 0, 0, 0}}, {3, 20, 0, {9, 12, 0, 0}}, {3, 20, 24, {9, 12, 0, 0}},
        {4, 20, 24, {9, 16, 0, 0}},   {4, 20, 0, {9, 16, 0, 0}},
    };
    make_stated(&sparse, NOTHING);
    require_numbers(write_file(&sparse, 0, 0, 19), 8, 20, 0, 0);
    require_numbers(write_file(&sparse, 0, 0, 20), 0, 0, 20, 0);
    require(memcmp(left(2), bytes, sizeof bytes) == 0, "another file than the one written out");
    require_numbers(write_file(&sparse, 1, 0, 25), 2, 0, 0, 0);
    require_numbers(write_file(&sparse, 0, 1, 25), 2, 0, 0, 0);
    for (size_t i = 0; i < COUNT(spoiled_fields); i++) {
        memset(file, 0, 2 * HEADER);
        memcpy(file, bytes, sizeof bytes);
        set_field(file, spoiled_fields[i].field, spoiled_fields[i].value);
        require_stated(read_file(spoiled_fields[i].n, 0, 0), spoiled_fields[i].answer);
    }
}

/* As many records as a map may have, each a pixel, and one more, at m = 8 without a gap and at m = 9 with some. */
static void stated_most_records(uint32_t m)
{
    make_map(&sparse, 8, EVEN, most_cuts(8));
    if (m > 8)
        become_a_quadrant(&sparse, 0);
    require_numbers(check(&sparse, 65536, 65536), 0, 0, 65536, 0);
    require_numbers(check(&sparse, 65535, 65535), 0, 0, 65535, 0);
    require_numbers(check(&sparse, 65537, 65537), 2, 0, 0, 0);
    require_numbers(check(&sparse, 65536, 65535), 2, 0, 0, 0);
    require_numbers(write_file(&sparse, 65536, 65536, 327699), 8, 327700, 0, 0);
    require_numbers(write_file(&sparse, 65537, 65537, 327705), 2, 0, 0, 0);
    for (size_t i = 0; i < COUNT(asked_of_sparse); i++) {
        question q = {asked_of_sparse[i], &sparse, 3, {7, 9, 1, 1}, over(0, sparse.classes[107])};
        require_numbers(ask_slices(q, 65537, 65537, 1, enough_for(q)), 2, 0, 0, 0);
        require_numbers(ask_slices(q, 65536, 65536, 1, enough_for(q)), 0, 0, 1, opens(q.operation));
    }
}

void group_sparse_written_out(void)
{
    for (size_t i = 0; i < COUNT(stated_answers); i++)
        if (begin_case())
            stated_answer(i);
    for (size_t i = 0; i < COUNT(stated_checks); i++)
        if (begin_case()) {
            copy_records(&sparse, stated_checks[i].m, stated_checks[i].q, stated_checks[i].keys, REFERENCE_CLASSES);
            require_stated(check(&sparse, sparse.q, sparse.q), stated_checks[i].answer);
        }
    for (size_t i = 0; i < COUNT(stated_orders); i++)
        if (begin_case())
            stated_order(i);
    if (begin_case())
        stated_file();
    for (uint32_t m = 8; m <= 9; m++)
        if (begin_case())
            stated_most_records(m);
}

/* ---- Group: small sparse maps ---- */

/* Three that records have here, and then one that none has. */
static const uint8_t few_classes[] = {0, 1, 255, 9};
enum { OF_RECORDS = 3 };

/* Every window, over each background about each class, with each tile. */
static void try_every_window(void)
{
    for (size_t b = 0; b < COUNT(few_classes); b++) {
        const bool is_filled = fill_gaps(&sparse, few_classes[b], &filled);
        for (size_t number = 0; number < n_small_windows(sparse.m); number++) {
            const window at = small_window(sparse.m, number);
            if (!is_inside(at, sparse.m))
                continue;
            try_window_over(0, at, few_classes[b], few_classes, COUNT(few_classes), is_filled);
            for (uint32_t tile = 1; tile <= sparse.m; tile++)
                try_other_tile(tile, at, few_classes[b], few_classes, COUNT(few_classes));
        }
    }
}

void group_small_sparse_maps(void)
{
    enum { OF_2 = 300 };
    forget_met();
    const bool all_paintings = for_painted_sparse_maps(&sparse, few_classes, OF_RECORDS, try_every_window);
    const bool all_lists = for_small_sparse_maps(&sparse, OF_2, try_every_window);
    require_met(all_paintings && all_lists);
}

/* ---- Group: lengths on sparse maps ---- */

/* On borders and answer slices of each length up to a little more than is needed, or than is always enough. */
static void every_border_and_answer(void)
{
    static const window windows[] = {{0, 1, 3, 3}, {0, 0, 4, 4}, {1, 1, 2, 2}, {2, 0, 2, 1}, {3, 0, 1, 4}};
    for (size_t i = 0; i < COUNT(windows) * COUNT(asked_of_sparse); i++) {
        const window at = windows[i / COUNT(asked_of_sparse)];
        question q = some_question(asked_of_sparse[i % COUNT(asked_of_sparse)], &sparse, at);
        for (size_t n_border = 0; n_border <= at.w + (size_t)2; n_border++)
            for (size_t n_out = 0; n_out <= enough_for(q) + 2; n_out++)
                ask(q, n_border, n_out);
    }
}

/* On keys and classes that are each of any length up to one record more than the map has. */
static void every_length_of_map(void)
{
    const window at = whole_picture(sparse.m);
    copy_map(&damaged, &sparse);
    damaged.keys[damaged.q] = power_of_5(sparse.m) - 1; /* the last pixel */
    damaged.classes[damaged.q] = 1;
    for (size_t n_keys = 0; n_keys <= sparse.q + 1; n_keys++)
        for (size_t n_classes = 0; n_classes <= sparse.q + 1; n_classes++) {
            check(&damaged, n_keys, n_classes);
            for (size_t i = 0; i < COUNT(asked_of_sparse); i++) {
                question q = some_question(asked_of_sparse[i], &damaged, at);
                ask_slices(q, n_keys, n_classes, at.w, enough_for(q));
            }
        }
}

/* Each window: over old contents, and on slices that are empty, too short by one, just long enough and longer. */
static void every_length_in_every_window(void)
{
    for (size_t number = 0; number < n_small_windows(sparse.m); number++) {
        const window at = small_window(sparse.m, number);
        for (size_t i = 0; i < COUNT(asked_of_sparse); i++)
            ask_with_every_length(some_question(asked_of_sparse[i], &sparse, at));
        if (is_inside(at, sparse.m))
            ask_over_old_contents(&sparse, at, asked_of_sparse, COUNT(asked_of_sparse));
    }
}

static void every_length(void)
{
    every_length_of_map();
    every_length_in_every_window();
}

void group_sparse_lengths(void)
{
    for (size_t i = LEFT_OUT; i < PIXEL; i++)
        if (begin_case()) {
            make_stated(&sparse, i);
            every_border_and_answer();
        }
    for_small_sparse_maps(&sparse, 60, every_length);
}

/* ---- Group: refusals of sparse maps ---- */

/* Of the reference map, and of its first records. */
static const need needs_of_sparse[] = {
    {&SPARSE_OPEN, 0, NO_CLASS, 3, {0, 20, 21}},    {&SPARSE_OPEN, 2, NO_CLASS, 3, {0, 11, 12}},
    {&SPARSE_OPEN, 3, NO_CLASS, 2, {0, 21}},        {&SPARSE_OPEN, 258, NO_CLASS, 2, {0, 21}},
    {&SPARSE_EXIST, NO_TILE, 256 * 1 + 3, 1, {0}},  {&SPARSE_REPORT, NO_TILE, 256 * 255, 3, {0, 255, 256}},
    {&SPARSE_SELECT, 0, 256 * 2 + 1, 3, {0, 3, 4}}, {&SPARSE_SELECT, 2, 256 * 1 + 1, 3, {0, 4, 6}},
    {&SPARSE_SELECT, 3, 256 * 1 + 1, 2, {0, 6}},
};

void group_sparse_refusals(void)
{
    for (size_t i = 0; i < CHOSEN_WINDOWS; i++)
        if (begin_case())
            ask_with_reasons_together(chosen_windows[i], needs_of_sparse, COUNT(needs_of_sparse));
}

/* ---- Group: damaged sparse maps ---- */

static void ask_damaged(void)
{
    check(&damaged, damaged.q, damaged.q);
    for (size_t i = 0; i < COUNT(asked_of_sparse); i++)
        ask_inside_and_outside(asked_of_sparse[i], &damaged);
}

static void every_damage(void)
{
    for_every_damage(&sparse, &damaged, ask_damaged);
}

void group_damaged_sparse_maps(void)
{
    for_small_sparse_maps(&sparse, 200, every_damage);
}

/* ---- Group: sparse files ---- */

/* Into a file and back, and the file into a map and back. Returns the length of the file, which is left. */
static size_t go_round(const map *a)
{
    const size_t n = length_of_file(a->q);
    require_numbers(write_file(a, a->q, a->q, n), 0, 0, (uint32_t)n, 0);
    memcpy(file, left(2), n);
    require_numbers(read_file(n, a->q, a->q), 0, 0, a->m, (uint32_t)a->q);
    copy_records(&damaged, a->m, a->q, left(1), left(2));
    require(memcmp(damaged.keys, a->keys, a->q * sizeof *a->keys) == 0
                && memcmp(damaged.classes, a->classes, a->q) == 0,
            "what was written is read as another map");
    require_numbers(write_file(&damaged, a->q, a->q, n), 0, 0, (uint32_t)n, 0);
    require(memcmp(left(2), file, n) == 0, "what was read from a file is written as another file");
    return n;
}

/* Slices of each length up to some cells more than are needed, and files of each length with right and wrong fields. */
static void every_length_of_file(void)
{
    const size_t n = go_round(&sparse);
    memset(file + n, 0, 5);
    for (size_t n_keys = 0; n_keys <= sparse.q + 2; n_keys++)
        for (size_t n_classes = 0; n_classes <= sparse.q + 2; n_classes++)
            read_file(n, n_keys, n_classes);
    for (size_t n_out = 0; n_out <= n + 3; n_out++)
        write_file(&sparse, sparse.q, sparse.q, n_out);
    for (size_t cut = 0; cut <= n + 5; cut++) {
        set_header(file, sparse.m, sparse.q);
        read_file(cut, sparse.q, sparse.q);
        set_field(file, 0, (uint32_t)cut);
        read_file(cut, sparse.q, sparse.q);
    }
}

/* Each byte of the header set to each number. */
static void every_byte_of_header(size_t q)
{
    make_stated(&sparse, LEFT_OUT);
    sparse.q = q;
    const size_t n = make_file(file, &sparse);
    for (size_t i = 0; i < HEADER; i++)
        for (int byte = 0; byte <= UINT8_MAX; byte++) {
            set_header(file, sparse.m, q);
            file[i] = (uint8_t)byte;
            read_file(n, q, q);
        }
}

void group_sparse_files(void)
{
    for_small_sparse_maps(&sparse, 100, every_length_of_file);
    for (size_t q = 0; q <= 4; q++)
        if (begin_case())
            every_byte_of_header(q);
    for (size_t density = 0; density < DENSITIES; density++)
        if (begin_case()) {
            make_map(&sparse, 12, RAGGED, most_cuts(8));
            make_sparse(&sparse, density);
            go_round(&sparse);
        }
}

/* ---- Group: vast sparse slices ---- */

/*
 * Of the map without class 1, over the background 1, and of the window 0 1 3 3. Where there is a tile it is 0: then
 * there are eight openings, and four keys of class 1.
 */
static const struct {
    const operation *operation;
    size_t n_keys, n_classes, n_border, n_out;
    lutniorad_answer answer;
} vast_sparse[] = {
    {&SPARSE_OPEN, 4, 4, VAST + 2, 24, {0, 0, 8, 4}},
    {&SPARSE_OPEN, 4, 4, 3, VAST, {0, 0, 8, 4}},
    {&SPARSE_OPEN, 4, 4, VAST + 2, VAST + 23, {0, 0, 8, 4}},
    {&SPARSE_OPEN, 4, 4, 65538, 65536 + 23, {0, 0, 8, 4}},
    {&SPARSE_OPEN, 4, 4, VAST + 3, 23, {8, 24, 0, 0}},
    {&SPARSE_OPEN, 4, 4, 2, VAST + 24, {7, 3, 0, 0}},
    {&SPARSE_OPEN, VAST, VAST, 3, 24, {2, 0, 0, 0}},
    {&SPARSE_OPEN, VAST + 4, 4, 3, 24, {2, 0, 0, 0}},
    {&SPARSE_OPEN, 4, VAST + 4, 3, 24, {2, 0, 0, 0}},
    {&SPARSE_OPEN, 0, VAST, 3, 24, {2, 0, 0, 0}},
    {&SPARSE_EXIST, 4, 4, VAST + 2, 0, {0, 0, 1, 0}},
    {&SPARSE_EXIST, VAST, VAST, 3, 0, {2, 0, 0, 0}},
    {&SPARSE_EXIST, VAST, 0, 3, 0, {2, 0, 0, 0}},
    {&SPARSE_REPORT, 4, 4, VAST + 2, VAST + 255, {0, 0, 9, 0}},
    {&SPARSE_REPORT, 4, 4, VAST + 3, 255, {8, 256, 0, 0}},
    {&SPARSE_REPORT, 4, 4, 2, VAST + 256, {7, 3, 0, 0}},
    {&SPARSE_REPORT, VAST, VAST, 3, 256, {2, 0, 0, 0}},
    {&SPARSE_SELECT, 4, 4, VAST + 2, VAST + 3, {0, 0, 4, 0}},
    {&SPARSE_SELECT, 4, 4, VAST + 3, 3, {8, 4, 0, 0}},
    {&SPARSE_SELECT, 4, 4, 2, VAST + 4, {7, 3, 0, 0}},
    {&SPARSE_SELECT, VAST, VAST, 3, 4, {2, 0, 0, 0}},
    {&SPARSE_SELECT, 0, VAST, 3, 4, {2, 0, 0, 0}},
    {&SPARSE_CHECK, VAST, VAST, 0, 0, {2, 0, 0, 0}},
    {&SPARSE_CHECK, VAST, 0, 0, 0, {2, 0, 0, 0}},
    {&SPARSE_CHECK, 0, VAST, 0, 0, {2, 0, 0, 0}},
    {&SPARSE_WRITE, VAST, VAST, 0, 20, {2, 0, 0, 0}},
    {&SPARSE_WRITE, 4, 4, 0, VAST + 39, {0, 0, 40, 0}},
    {&SPARSE_WRITE, 0, 0, 0, VAST + 19, {0, 0, 20, 0}},
};

static void vast_call(size_t i)
{
    const size_t n_keys = vast_sparse[i].n_keys, n_classes = vast_sparse[i].n_classes, n_out = vast_sparse[i].n_out;
    make_stated(&sparse, LEFT_OUT);
    question q = {vast_sparse[i].operation, &sparse, 0, {0, 1, 3, 3}, over(1, 1)};
    lutniorad_answer answer = q.operation == &SPARSE_CHECK ? check(&sparse, n_keys, n_classes)
                              : q.operation == &SPARSE_WRITE
                                  ? write_file(&sparse, n_keys, n_classes, n_out)
                                  : ask_slices(q, n_keys, n_classes, vast_sparse[i].n_border, n_out);
    require_stated(answer, vast_sparse[i].answer);
}

void group_vast_sparse(void)
{
    for (size_t i = 0; i < COUNT(vast_sparse); i++)
        if (begin_case())
            vast_call(i);
    if (begin_case()) {
        make_stated(&sparse, NOTHING);
        go_round(&sparse);
        require_numbers(read_file(HEADER, VAST, VAST), 0, 0, 2, 0);
        require_numbers(read_file(VAST + HEADER, 0, 0), 9, 0, 0, 0);
    }
}

/* ---- Group: large sparse maps ---- */

/* As many records as there can be, thinned out, through thin windows, and at m = 8 through wide ones. */
static void large_map(uint32_t m, shape how, size_t density)
{
    make_map(&sparse, m, how, most_cuts(8));
    make_sparse(&sparse, density);
    check(&sparse, sparse.q, sparse.q);
    for (size_t number = 0; number < THIN_WINDOWS; number++) {
        const uint8_t asked[] = {some_class(&sparse), some_class(&sparse)};
        const window at = thin_window(m, number);
        try_window_over(some_tile(m, at), at, asked[0], asked, COUNT(asked), false);
    }
    if (m == 8) {
        question q = some_question(&SPARSE_SELECT, &sparse, wide_window(m, below(WIDE_WINDOWS)));
        const size_t n = ask_too_short(q);
        ask(q, q.at.w, n);
        q.operation = &SPARSE_OPEN;
        ask_in_full(q);
    }
}

/* Single pixels in the largest picture: a gap of nearly all of it, and a window of nearly all of it too. */
static void largest_picture(void)
{
    const window at = wide_window(12, 1);
    make_map(&sparse, 12, DEEP, 12);
    make_sparse(&sparse, HALF);
    question open = {&SPARSE_OPEN, &sparse, 12, at, NO_CLASS};
    question select = {&SPARSE_SELECT, &sparse, 12, at, over(7, 7)};
    ask_in_full(open);
    ask_in_full(select);
}

void group_large_sparse_maps(void)
{
    for (uint32_t m = 8; m <= 12; m += 4)
        for (size_t density = ONE_RECORD; density < COMPLETE; density++)
            if (begin_case())
                large_map(m, (shape)below(SHAPES), density);
    if (begin_case())
        largest_picture();
}

/* ---- Group: random sparse maps ---- */

/* Over a background that may be filled in, or not, where there are too many gaps for a complete map. */
static void try_at_random(window at)
{
    const uint8_t asked[] = {some_class(&sparse), some_class(&sparse), some_class(&sparse)};
    const bool is_filled = fill_gaps(&sparse, asked[0], &filled);
    try_window_over(some_tile(sparse.m, at), at, asked[0], asked, COUNT(asked), is_filled);
    ask_at_random(some_question(asked_of_sparse[below(COUNT(asked_of_sparse))], &sparse, at));
}

/* All records of a class are left out, or any. */
static void leave_out_some(map *a)
{
    if (below(3) == 0)
        leave_out(a, some_class(a));
    else
        make_sparse(a, below(DENSITIES));
}

static void random_sparse_maps(void)
{
    for (size_t i = 0; i < WINDOWS_ON_MAPS; i++) {
        make_random_map(&sparse);
        const window at = random_window_on(&sparse, i, (size_t)1 << 14);
        leave_out_some(&sparse);
        check(&sparse, sparse.q, sparse.q);
        go_round(&sparse);
        try_at_random(at);
    }
}

/* Pictures that are small enough for many windows. */
static void random_small_maps(void)
{
    const uint32_t m = 2 + (uint32_t)below(4);
    make_map(&sparse, m, (shape)below(SHAPES), below((most_cuts(m) >> below(8)) + 1));
    leave_out_some(&sparse);
    for (int i = 0; i < 8; i++)
        try_at_random(random_window(m, (size_t)1 << 2 * m));
}

void group_random_sparse_maps(void)
{
    enum { CASES = 150, SMALL_CASES = 1000 };
    int run = 0;
    forget_met();
    for (int i = 0; i < CASES; i++)
        if (begin_case()) {
            random_sparse_maps();
            run++;
        }
    for (int i = 0; i < SMALL_CASES; i++)
        if (begin_case()) {
            random_small_maps();
            run++;
        }
    require_met(run == CASES + SMALL_CASES);
}

/* ---- Group: single pixels ---- */

enum { PIXELS = 8 };

/* The windows about the pixel that have no more pixels than the longest strip, without a tile and with some. */
static void try_windows_about(window pixel, size_t reach, uint8_t background)
{
    const bool is_filled = fill_gaps(&sparse, background, &filled);
    for (size_t number = 0; number < WINDOWS_ABOUT; number++) {
        const window at = window_about(sparse.m, pixel, reach, number);
        if (!is_inside(at, sparse.m) || (size_t)at.h * at.w > LUTNIORAD_MOST_SIDE)
            continue;
        try_window_over(sparse.m, at, background, few_classes, OF_RECORDS, is_filled);
        try_other_tile(some_tile(sparse.m, at), at, background, few_classes, OF_RECORDS);
    }
}

/* A map of this record alone. Its class is the background's or another, and each of the two seen or not. */
static void single_pixel(uint32_t m, window pixel)
{
    static const struct {
        uint8_t of_pixel, background;
    } painted[] = {{1, 0}, {1, 1}, {1, NOT_SEEN}, {NOT_SEEN, 1}, {NOT_SEEN, NOT_SEEN}};
    make_map_around(&sparse, m, pixel, 0);
    keep_inside(&sparse, pixel);
    require(sparse.q == 1, "there is not one record that is the pixel");
    check(&sparse, sparse.q, sparse.q);
    go_round(&sparse);
    for (size_t i = 0; i < COUNT(painted); i++) {
        const size_t reach = (size_t)1 << below(5);
        sparse.classes[0] = painted[i].of_pixel;
        try_windows_about(pixel, reach, painted[i].background);
    }
}

void group_single_pixels(void)
{
    static const uint32_t ms[] = {2, 5, 9, 12};
    for (size_t i = 0; i < COUNT(ms); i++) {
        size_t run = 0;
        forget_met();
        for (size_t number = 0; number < PIXELS; number++)
            if (begin_case()) {
                single_pixel(ms[i], nth_pixel(ms[i], number));
                run++;
            }
        require_met_on_pixels(run == PIXELS);
    }
}
