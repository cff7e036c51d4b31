/*
 * All numbers are 64 bits wide, and none here comes near 2^64 but what may stand in the table of a month. No sum or
 * product is made of that before it is known to be small: nothing wraps.
 */
#include "reference.h"

#include <stdlib.h>
#include <string.h>

enum { MOST_DIGITS = 12, MOST_RECORDS = 65536, HEADER = 20 };

static lutniorad_answer answered(uint64_t first, uint64_t second)
{
    lutniorad_answer answer = {0, 0, (uint32_t)first, (uint32_t)second};
    return answer;
}

static lutniorad_answer refused(uint32_t number, uint64_t place)
{
    lutniorad_answer answer = {number, (uint32_t)place, 0, 0};
    return answer;
}

/* ---- Keys ---- */

/* A key has m digits in base 5, here the most significant first. False where it has more: it is 5^m or over. */
static bool digits_of(uint64_t key, uint64_t m, uint64_t digits[MOST_DIGITS])
{
    for (uint64_t i = m; i > 0; i--) {
        digits[i - 1] = key % 5;
        key = key / 5;
    }
    return key == 0;
}

/* A block of level d has d nonzero digits and then m - d zeros: no digit but 0 comes after a 0. */
static bool has_the_form(const uint64_t digits[MOST_DIGITS], uint64_t m)
{
    for (uint64_t i = 1; i < m; i++)
        if (digits[i - 1] == 0 && digits[i] != 0)
            return false;
    return true;
}

/*
 * The pixels in key order, counted from 0. A pixel's digits are all from 1 to 4, and every choice of m of them is a
 * pixel; so a pixel's number is its digits, each less 1, read in base 4. Of a block's pixels the first has the block's
 * digits and then 1 for each zero (north-west all the way down), the last 4 for each zero (south-east).
 */
static uint64_t pixel_in_block(const uint64_t digits[MOST_DIGITS], uint64_t m, uint64_t instead_of_zero)
{
    uint64_t number = 0;
    for (uint64_t i = 0; i < m; i++) {
        uint64_t digit = digits[i] == 0 ? instead_of_zero : digits[i];
        number = 4 * number + (digit - 1);
    }
    return number;
}

/* The picture has T rows and T columns, T = 2^m. */
static uint64_t side_of_picture(uint64_t m)
{
    uint64_t side = 1;
    for (uint64_t i = 0; i < m; i++)
        side = 2 * side;
    return side;
}

/* A tile is as large as the picture would be whose m is c. */
static uint64_t side_of_tile(uint64_t c)
{
    return side_of_picture(c);
}

typedef struct {
    uint64_t row, col, side;
} square;

/* Each digit chooses a quadrant of the square so far: 1 NW, 2 NE, 3 SW, 4 SE. A zero leaves it whole. */
static square block_of(const uint64_t digits[MOST_DIGITS], uint64_t m)
{
    square block = {0, 0, side_of_picture(m)};
    for (uint64_t i = 0; i < m && digits[i] != 0; i++) {
        block.side = block.side / 2;
        if (digits[i] == 3 || digits[i] == 4)
            block.row += block.side;
        if (digits[i] == 2 || digits[i] == 4)
            block.col += block.side;
    }
    return block;
}

/* ---- Maps ---- */

/* The records of a complete map have every pixel. A sparse one may have pixels in no record, and no record at all. */
typedef enum { COMPLETE, SPARSE } map_kind;

/* A map as it is lent, and the class of a pixel in no record; or where it lies over a baseline, that. */
typedef struct lent_map lent_map;
struct lent_map {
    map_kind kind;
    uint32_t m;
    const uint32_t *keys;
    size_t n_keys;
    const uint8_t *classes;
    size_t n_classes;
    uint8_t background;
    const lent_map *baseline; /* NULL where there is none */
};

static lent_map complete_map(uint32_t m, const uint32_t *keys, size_t n_keys, const uint8_t *classes, size_t n_classes)
{
    lent_map on = {COMPLETE, m, keys, n_keys, classes, n_classes, 0 /* of no pixel */, NULL};
    return on;
}

static lent_map sparse_map(uint32_t m, const uint32_t *keys, size_t n_keys, const uint8_t *classes, size_t n_classes,
                           uint8_t background)
{
    lent_map on = {SPARSE, m, keys, n_keys, classes, n_classes, background, NULL};
    return on;
}

static lent_map overlay(uint32_t m, const uint32_t *keys, size_t n_keys, const uint8_t *classes, size_t n_classes,
                        const lent_map *baseline)
{
    lent_map on = {SPARSE, m, keys, n_keys, classes, n_classes, 0 /* of no pixel */, baseline};
    return on;
}

/*
 * m is from 0 to 12; keys and classes have the same length Q, from 1 to 65,536, or from 0 where the map is sparse.
 * Refusal 0 where both hold.
 */
static lutniorad_answer size_of_map(map_kind kind, uint64_t m, uint64_t n_keys, uint64_t n_classes)
{
    if (m > MOST_DIGITS)
        return refused(1, 0);
    if (n_keys != n_classes || n_keys > MOST_RECORDS || (n_keys == 0 && kind == COMPLETE))
        return refused(2, 0);
    return answered(0, 0);
}

static lutniorad_answer check_map(lent_map on)
{
    lutniorad_answer size = size_of_map(on.kind, on.m, on.n_keys, on.n_classes);
    if (size.refusal != 0)
        return size;

    uint64_t ended = 0; /* where the last span ended; the first record of a complete map must start at pixel 0 */
    for (uint64_t i = 0; i < on.n_keys; i++) {
        uint64_t digits[MOST_DIGITS];
        if (!digits_of(on.keys[i], on.m, digits) || !has_the_form(digits, on.m))
            return refused(3, i);
        uint64_t start = pixel_in_block(digits, on.m, 1);
        if (start < ended)
            return refused(4, i);
        if (start > ended && on.kind == COMPLETE)
            return refused(5, i);
        ended = pixel_in_block(digits, on.m, 4) + 1;
    }
    if (ended != side_of_picture(on.m) * side_of_picture(on.m) && on.kind == COMPLETE)
        return refused(5, on.n_keys); /* the last must end with the picture */
    return answered(on.n_keys, 0);
}

/* The two maps of an overlay, as a refusal names them. */
enum { TODAY = 1, BASELINE = 2 };

/* Today's map, then the baseline, each with its refusals, and then whether they are of one m. */
static lutniorad_answer check_overlay(lent_map on)
{
    const lent_map maps[] = {on, *on.baseline};
    for (uint32_t number = TODAY; number <= BASELINE; number++) {
        lutniorad_answer check = check_map(maps[number - TODAY]);
        if (check.refusal != 0) {
            check.first = number;
            return check;
        }
    }
    return on.m == on.baseline->m ? answered(0, 0) : refused(15, 0);
}

lutniorad_answer reference_check(uint32_t m,
                                 const uint32_t *keys, size_t n_keys,
                                 const uint8_t *classes, size_t n_classes)
{
    return check_map(complete_map(m, keys, n_keys, classes, n_classes));
}

lutniorad_answer reference_sparse_check(uint32_t m,
                                        const uint32_t *keys, size_t n_keys,
                                        const uint8_t *classes, size_t n_classes)
{
    return check_map(sparse_map(m, keys, n_keys, classes, n_classes, 0));
}

/* ---- Windows ---- */

/* h and w are at least 1, r0 + h and c0 + w at most T. */
static bool is_inside(window at, uint64_t side_of_all)
{
    return at.h >= 1 && at.w >= 1 && (uint64_t)at.r0 + at.h <= side_of_all && (uint64_t)at.c0 + at.w <= side_of_all;
}

static bool lies_in(square block, window at)
{
    return block.row >= at.r0 && block.row + block.side <= (uint64_t)at.r0 + at.h && block.col >= at.c0
           && block.col + block.side <= (uint64_t)at.c0 + at.w;
}

/* The block of twice the side that contains this one. */
static square parent_of(square block)
{
    uint64_t side = 2 * block.side;
    square parent = {block.row / side * side, block.col / side * side, side};
    return parent;
}

/*
 * A block that is no larger than a tile is maximal when it lies in the window and no larger one, up to the tile's side,
 * that lies in the window contains it. Where there is no tile, the picture is one.
 */
static bool is_maximal(square block, window at, uint64_t most_side)
{
    if (!lies_in(block, at))
        return false;
    while (block.side < most_side) {
        block = parent_of(block);
        if (lies_in(block, at))
            return false;
    }
    return true;
}

bool reference_lies_in(uint32_t m, uint32_t key, window at)
{
    uint64_t digits[MOST_DIGITS];
    return digits_of(key, m, digits) && has_the_form(digits, m) && lies_in(block_of(digits, m), at);
}

bool reference_maximal(uint32_t m, uint32_t tile, uint32_t key, window at)
{
    uint64_t digits[MOST_DIGITS];
    if (!digits_of(key, m, digits) || !has_the_form(digits, m))
        return false;
    square block = block_of(digits, m);
    return block.side <= side_of_tile(tile) && is_maximal(block, at, side_of_tile(tile));
}

/* Room for as many maximal blocks as any window has with tiles of side 16 or more: fewer than 4(w + h) + wh/256. */
enum { MOST_BLOCKS = 4 * (4096 + 4096) + 4096 * 4096 / 256 };

typedef struct {
    uint64_t n;
    square blocks[MOST_BLOCKS];
} block_list;

static void append_block(block_list *list, square block)
{
    if (list->n == MOST_BLOCKS)
        abort();
    list->blocks[list->n++] = block;
}

static bool same_window(window a, window b)
{
    return a.r0 == b.r0 && a.c0 == b.c0 && a.h == b.h && a.w == b.w;
}

/*
 * The maximal blocks by the row of the corner, then by its column: every block at every pixel is tried. The last list
 * is kept, since a large window takes long and is asked about more than once.
 */
static const block_list *list_maximal(window at, uint64_t most_side)
{
    static block_list list;
    static window kept_at;
    static uint64_t kept_side; /* 0: there is none yet */
    if (most_side == kept_side && same_window(at, kept_at))
        return &list;
    kept_at = at;
    kept_side = most_side;
    list.n = 0;
    for (uint64_t row = at.r0; row < (uint64_t)at.r0 + at.h; row++)
        for (uint64_t col = at.c0; col < (uint64_t)at.c0 + at.w; col++)
            for (uint64_t side = 1; side <= most_side && row % side == 0 && col % side == 0; side = 2 * side) {
                square block = {row, col, side};
                if (is_maximal(block, at, most_side))
                    append_block(&list, block);
            }
    return &list;
}

/* A digit for each halving of the picture: the quadrant that the block lies in, or 0 where it is not that small. */
static uint64_t key_of(square block, uint64_t side_of_all)
{
    uint64_t key = 0;
    for (uint64_t side = side_of_all / 2; side > 0; side = side / 2) {
        bool south = block.row / side % 2 == 1, east = block.col / side % 2 == 1;
        uint64_t quadrant = south ? (east ? 4 : 3) : (east ? 2 : 1);
        key = 5 * key + (side < block.side ? 0 : quadrant);
    }
    return key;
}

/* m is from 0 to 12, and c from 0 to m. Refusal 0 where both hold. */
static lutniorad_answer size_of_tile(uint64_t m, uint64_t tile)
{
    if (m > MOST_DIGITS)
        return refused(1, 0);
    if (tile > m)
        return refused(17, 0);
    return answered(0, 0);
}

lutniorad_answer reference_decompose_tiled(uint32_t m, uint32_t tile,
                                           uint16_t r0, uint16_t c0, uint16_t h, uint16_t w,
                                           uint32_t *out, size_t n_out)
{
    window at = {r0, c0, h, w};
    lutniorad_answer size = size_of_tile(m, tile);
    if (size.refusal != 0)
        return size;
    uint64_t side_of_all = side_of_picture(m);
    if (!is_inside(at, side_of_all))
        return refused(6, 0);
    const block_list *maximal = list_maximal(at, side_of_tile(tile));
    if (n_out < maximal->n)
        return refused(8, maximal->n);
    for (uint64_t i = 0; i < maximal->n; i++)
        out[i] = (uint32_t)key_of(maximal->blocks[i], side_of_all);
    return answered(maximal->n, 0);
}

lutniorad_answer reference_decompose(uint32_t m,
                                     uint16_t r0, uint16_t c0, uint16_t h, uint16_t w,
                                     uint32_t *out, size_t n_out)
{
    return reference_decompose_tiled(m, m, r0, c0, h, w, out, n_out);
}

/* ---- Rasters ---- */

static uint64_t greater(uint64_t a, uint64_t b)
{
    return a > b ? a : b;
}

static uint64_t lesser(uint64_t a, uint64_t b)
{
    return a < b ? a : b;
}

static uint64_t place_in_raster(window at, uint64_t row, uint64_t col)
{
    return (row - at.r0) * at.w + (col - at.c0);
}

/* Paints what of the block lies in the window. False where a pixel there lies in a record already. */
static bool paint_block(square block, window at, uint32_t record, uint32_t *raster)
{
    uint64_t rows_end = lesser(block.row + block.side, (uint64_t)at.r0 + at.h);
    uint64_t cols_end = lesser(block.col + block.side, (uint64_t)at.c0 + at.w);
    for (uint64_t row = greater(block.row, at.r0); row < rows_end; row++)
        for (uint64_t col = greater(block.col, at.c0); col < cols_end; col++) {
            uint32_t *pixel = &raster[place_in_raster(at, row, col)];
            if (*pixel != NO_RECORD)
                return false;
            *pixel = record;
        }
    return true;
}

bool reference_sparse_raster(uint32_t m, const uint32_t *keys, size_t q, window at, uint32_t *raster)
{
    uint64_t pixels = (uint64_t)at.h * at.w;
    for (uint64_t i = 0; i < pixels; i++)
        raster[i] = NO_RECORD;
    for (uint64_t i = 0; i < q; i++) {
        uint64_t digits[MOST_DIGITS];
        if (!digits_of(keys[i], m, digits) || !has_the_form(digits, m))
            return false;
        if (!paint_block(block_of(digits, m), at, (uint32_t)i, raster))
            return false;
    }
    return true;
}

bool reference_raster(uint32_t m, const uint32_t *keys, size_t q, window at, uint32_t *raster)
{
    uint64_t pixels = (uint64_t)at.h * at.w;
    if (!reference_sparse_raster(m, keys, q, at, raster))
        return false;
    for (uint64_t i = 0; i < pixels; i++)
        if (raster[i] == NO_RECORD)
            return false;
    return true;
}

/* ---- A window on a map ---- */

/* The raster of the window at hand: for each pixel the record that it lies in, or NO_RECORD. */
static uint32_t records[MOST_PIXELS];

/* A map and a window that something was made for, so that it need not be made again. */
typedef struct {
    bool is_kept;
    uint32_t m, keys[MOST_RECORDS];
    uint64_t q;
    window at;
} made_for;

static bool is_for(const made_for *kept, lent_map on, window at)
{
    return kept->is_kept && on.m == kept->m && on.n_keys == kept->q && same_window(at, kept->at)
           && memcmp(on.keys, kept->keys, on.n_keys * sizeof *on.keys) == 0;
}

static void keep_for(made_for *kept, lent_map on, window at)
{
    kept->is_kept = true;
    kept->m = on.m;
    kept->q = on.n_keys;
    kept->at = at;
    memcpy(kept->keys, on.keys, on.n_keys * sizeof *on.keys);
}

/* The same of the baseline, where the map at hand lies over one. */
static uint32_t records_of_baseline[MOST_PIXELS];

/* Paints the records of a sound map. As with the maximal blocks, what was painted last is kept. */
static void paint_raster(lent_map on, window at, uint32_t *raster, made_for *last)
{
    if (is_for(last, on, at))
        return;
    if (!(on.kind == COMPLETE ? reference_raster : reference_sparse_raster)(on.m, on.keys, on.n_keys, at, raster))
        abort();
    keep_for(last, on, at);
}

static void paint_records(lent_map on, window at)
{
    static made_for last, last_baseline;
    paint_raster(on, at, records, &last);
    if (on.baseline != NULL)
        paint_raster(*on.baseline, at, records_of_baseline, &last_baseline);
}

/* What every answer about a window on a sound map has: the records painted, and the border as it is in the end. */
static void begin_answer(lent_map on, window at, uint16_t *border)
{
    paint_records(on, at);
    for (uint64_t i = 0; i < at.w; i++)
        border[i] = (uint16_t)(at.r0 + at.h);
}

/* 1 and 17, and those from 2 to 5, or refusal 0. */
static lutniorad_answer check_tile_and_map(lent_map on, uint32_t tile)
{
    lutniorad_answer size = size_of_tile(on.m, tile);
    return size.refusal != 0 ? size : check_map(on);
}

/*
 * What every question about a window may be refused by: those for its map and its tile, or for the two maps of an
 * overlay, and 6 and 7, or refusal 0. A question without a tile is one with c = m.
 */
static lutniorad_answer check_question(lent_map on, uint32_t tile, window at, size_t n_border)
{
    lutniorad_answer check = on.baseline != NULL ? check_overlay(on) : check_tile_and_map(on, tile);
    if (check.refusal != 0)
        return check;
    if (!is_inside(at, side_of_picture(on.m)))
        return refused(6, 0);
    if (n_border < at.w)
        return refused(7, at.w);
    return answered(0, 0);
}

/* The same, and with refusal 0 the answer is begun, whatever comes of the slice for it. */
static lutniorad_answer begin_question(lent_map on, uint32_t tile, window at, uint16_t *border, size_t n_border)
{
    lutniorad_answer check = check_question(on, tile, at, n_border);
    if (check.refusal == 0)
        begin_answer(on, at, border);
    return check;
}

/* The record that has all pixels of the block, or NO_RECORD where no single one has. */
static uint32_t record_around(square block, window at)
{
    uint32_t record = records[place_in_raster(at, block.row, block.col)];
    for (uint64_t row = block.row; row < block.row + block.side; row++)
        for (uint64_t col = block.col; col < block.col + block.side; col++)
            if (records[place_in_raster(at, row, col)] != record)
                return NO_RECORD;
    return record;
}

/* ---- Openings ---- */

/* Which opening handed each record out. */
enum { NO_OPENING = MOST_BLOCKS };

static uint64_t handed_out_by[MOST_RECORDS];

/* A block is skipped when it lies in a record already handed out. */
static bool is_skipped(square block, window at)
{
    uint32_t record = record_around(block, at);
    return record != NO_RECORD && handed_out_by[record] != NO_OPENING;
}

typedef struct {
    uint64_t key, first, count;
} opening;

static opening openings[MOST_BLOCKS]; /* of the window at hand */

/* Hands out every record that has a pixel in the block. Where there is none, the first is said to be 0. */
static opening open_block(square block, window at, uint64_t side_of_all, uint64_t number)
{
    opening made = {key_of(block, side_of_all), NO_RECORD, 0};
    for (uint64_t row = block.row; row < block.row + block.side; row++)
        for (uint64_t col = block.col; col < block.col + block.side; col++) {
            uint32_t record = records[place_in_raster(at, row, col)];
            if (record == NO_RECORD)
                continue;
            if (handed_out_by[record] != number)
                made.count++;
            handed_out_by[record] = number;
            made.first = lesser(made.first, record);
        }
    if (made.count == 0)
        made.first = 0;
    return made;
}

/* Makes the openings of the window at hand, on a map of q records, and returns their number. */
static uint64_t make_openings(uint32_t m, uint32_t tile, uint64_t q, window at)
{
    const block_list *maximal = list_maximal(at, side_of_tile(tile));
    uint64_t n = 0;
    for (uint64_t i = 0; i < q; i++)
        handed_out_by[i] = NO_OPENING;
    for (uint64_t i = 0; i < maximal->n; i++)
        if (!is_skipped(maximal->blocks[i], at)) {
            openings[n] = open_block(maximal->blocks[i], at, side_of_picture(m), n);
            n++;
        }
    return n;
}

static lutniorad_answer open_window(lent_map on, uint32_t tile, window at, uint16_t *border, size_t n_border,
                                    uint32_t *out, size_t n_out)
{
    lutniorad_answer begun = begin_question(on, tile, at, border, n_border);
    if (begun.refusal != 0)
        return begun;
    uint64_t n = make_openings(on.m, tile, on.n_keys, at);
    if (n_out < 3 * n)
        return refused(8, 3 * n);
    uint64_t handed_out = 0;
    for (uint64_t i = 0; i < n; i++) {
        out[3 * i] = (uint32_t)openings[i].key;
        out[3 * i + 1] = (uint32_t)openings[i].first;
        out[3 * i + 2] = (uint32_t)openings[i].count;
        handed_out += openings[i].count;
    }
    return answered(n, handed_out);
}

lutniorad_answer reference_open_tiled(uint32_t m, uint32_t tile,
                                      const uint32_t *keys, size_t n_keys,
                                      const uint8_t *classes, size_t n_classes,
                                      uint16_t r0, uint16_t c0, uint16_t h, uint16_t w,
                                      uint16_t *border, size_t n_border,
                                      uint32_t *out, size_t n_out)
{
    window at = {r0, c0, h, w};
    return open_window(complete_map(m, keys, n_keys, classes, n_classes), tile, at, border, n_border, out, n_out);
}

lutniorad_answer reference_sparse_open(uint32_t m, uint32_t tile,
                                       const uint32_t *keys, size_t n_keys,
                                       const uint8_t *classes, size_t n_classes,
                                       uint16_t r0, uint16_t c0, uint16_t h, uint16_t w,
                                       uint16_t *border, size_t n_border,
                                       uint32_t *out, size_t n_out)
{
    window at = {r0, c0, h, w};
    return open_window(sparse_map(m, keys, n_keys, classes, n_classes, 0), tile, at, border, n_border, out, n_out);
}

lutniorad_answer reference_open(uint32_t m,
                                const uint32_t *keys, size_t n_keys,
                                const uint8_t *classes, size_t n_classes,
                                uint16_t r0, uint16_t c0, uint16_t h, uint16_t w,
                                uint16_t *border, size_t n_border,
                                uint32_t *out, size_t n_out)
{
    return reference_open_tiled(m, m, keys, n_keys, classes, n_classes, r0, c0, h, w, border, n_border, out, n_out);
}

/* ---- Many windows ---- */

enum { MOST_WINDOWS = 256, CELLS_OF_WINDOW = 5 };

/* A list has four numbers for each window: r0, c0, h, w. */
static window window_of_list(const uint16_t *windows, uint64_t i)
{
    window at = {windows[4 * i], windows[4 * i + 1], windows[4 * i + 2], windows[4 * i + 3]};
    return at;
}

/* The width of the widest window inside the picture, or 0 where there is none. */
static uint64_t widest_inside(const uint16_t *windows, uint64_t n, uint64_t side_of_all)
{
    uint64_t widest = 0;
    for (uint64_t i = 0; i < n; i++) {
        window at = window_of_list(windows, i);
        if (is_inside(at, side_of_all))
            widest = greater(widest, at.w);
    }
    return widest;
}

/* What stands in this cell of the border in the end: some window inside the picture is wide enough to reach it. */
static uint64_t last_to_reach(uint64_t column, const uint16_t *windows, uint64_t n, uint64_t side_of_all)
{
    for (uint64_t i = n; i > 0; i--) {
        window at = window_of_list(windows, i - 1);
        if (is_inside(at, side_of_all) && at.w > column)
            return (uint64_t)at.r0 + at.h;
    }
    abort();
}

/* The five cells of a window on a sound map. */
static void count_window(lent_map on, window at, uint32_t cells[CELLS_OF_WINDOW])
{
    for (uint64_t i = 0; i < CELLS_OF_WINDOW; i++)
        cells[i] = 0;
    if (!is_inside(at, side_of_picture(on.m))) {
        cells[0] = 6;
        return;
    }
    paint_records(on, at);
    uint64_t n = make_openings(on.m, on.m, on.n_keys, at);
    cells[2] = (uint32_t)n;
    for (uint64_t i = 0; i < n; i++)
        cells[3] += (uint32_t)openings[i].count;
    cells[4] = (uint32_t)at.h * at.w;
}

lutniorad_answer reference_windows(uint32_t m,
                                   const uint32_t *keys, size_t n_keys,
                                   const uint8_t *classes, size_t n_classes,
                                   const uint16_t *windows, size_t n_windows,
                                   uint16_t *border, size_t n_border,
                                   uint32_t *out, size_t n_out)
{
    lent_map on = complete_map(m, keys, n_keys, classes, n_classes);
    lutniorad_answer check = check_map(on);
    if (check.refusal != 0)
        return check;
    if (n_windows % 4 != 0 || n_windows > 4 * MOST_WINDOWS)
        return refused(25, 0);
    uint64_t n = n_windows / 4, side_of_all = side_of_picture(m), widest = widest_inside(windows, n, side_of_all);
    if (n_border < widest)
        return refused(7, widest);
    if (n_out < CELLS_OF_WINDOW * n)
        return refused(8, CELLS_OF_WINDOW * n);
    for (uint64_t i = 0; i < n; i++)
        count_window(on, window_of_list(windows, i), out + CELLS_OF_WINDOW * i);
    for (uint64_t column = 0; column < widest; column++)
        border[column] = (uint16_t)last_to_reach(column, windows, n, side_of_all);
    return answered(n, 0);
}

/* ---- Reasons ---- */

/* What is said: the first five of a record, the last two of a block. */
enum { HANDED_OUT = 1, NORTH = 2, SOUTH = 3, WEST = 4, EAST = 5, OPENED = 6, SKIPPED = 7 };

static lutniorad_reason because(uint64_t said, uint64_t record, uint64_t number_of_opening)
{
    lutniorad_reason reason = {0, 0, (uint32_t)said, (uint32_t)record, (uint32_t)number_of_opening};
    return reason;
}

static lutniorad_reason no_reason(lutniorad_answer refusal)
{
    lutniorad_reason reason = {refusal.refusal, refusal.place, 0, 0, 0};
    return reason;
}

/* So many rows, or columns, from `from` on are all before `to`. */
static bool ends_before(uint64_t from, uint64_t length, uint64_t to)
{
    return from + length <= to;
}

/* Where a block lies that has no pixel in the window: the first of the four that is true. */
static uint64_t direction_of(square block, window at)
{
    if (ends_before(block.row, block.side, at.r0))
        return NORTH;
    if (ends_before(at.r0, at.h, block.row))
        return SOUTH;
    if (ends_before(block.col, block.side, at.c0))
        return WEST;
    if (ends_before(at.c0, at.w, block.col))
        return EAST;
    abort();
}

lutniorad_reason reference_why_record(uint32_t m,
                                      const uint32_t *keys, size_t n_keys,
                                      const uint8_t *classes, size_t n_classes,
                                      uint16_t r0, uint16_t c0, uint16_t h, uint16_t w,
                                      uint32_t record,
                                      uint16_t *border, size_t n_border)
{
    uint64_t digits[MOST_DIGITS];
    window at = {r0, c0, h, w};
    lent_map on = complete_map(m, keys, n_keys, classes, n_classes);
    lutniorad_answer check = check_question(on, m, at, n_border);
    if (check.refusal != 0)
        return no_reason(check);
    if (record >= n_keys)
        return no_reason(refused(19, 0));
    begin_answer(on, at, border);
    make_openings(m, m, n_keys, at);
    if (handed_out_by[record] != NO_OPENING)
        return because(HANDED_OUT, record, handed_out_by[record]);
    digits_of(keys[record], m, digits);
    return because(direction_of(block_of(digits, m), at), record, 0);
}

/* Finds the maximal block of this key among all that the window has. False where it has none. */
static bool find_maximal(uint32_t m, uint32_t key, window at, square *block)
{
    const block_list *maximal = list_maximal(at, side_of_picture(m));
    for (uint64_t i = 0; i < maximal->n; i++)
        if (key_of(maximal->blocks[i], side_of_picture(m)) == key) {
            *block = maximal->blocks[i];
            return true;
        }
    return false;
}

lutniorad_reason reference_why_block(uint32_t m,
                                     const uint32_t *keys, size_t n_keys,
                                     const uint8_t *classes, size_t n_classes,
                                     uint16_t r0, uint16_t c0, uint16_t h, uint16_t w,
                                     uint32_t key,
                                     uint16_t *border, size_t n_border)
{
    square block;
    window at = {r0, c0, h, w};
    lent_map on = complete_map(m, keys, n_keys, classes, n_classes);
    lutniorad_answer check = check_question(on, m, at, n_border);
    if (check.refusal != 0)
        return no_reason(check);
    if (!find_maximal(m, key, at, &block))
        return no_reason(refused(22, 0));
    begin_answer(on, at, border);
    uint64_t n = make_openings(m, m, n_keys, at);
    for (uint64_t i = 0; i < n; i++)
        if (openings[i].key == key)
            return because(OPENED, 0, i);
    uint32_t around = record_around(block, at);
    return because(SKIPPED, around, handed_out_by[around]);
}

/* ---- Queries ---- */

/* Of a pixel in this record, or in none. */
static uint8_t class_of(lent_map on, uint32_t record)
{
    return record == NO_RECORD ? on.background : on.classes[record];
}

/* Of a pixel of the window at hand, by its place in the raster. */
static uint8_t class_at(lent_map on, uint64_t place)
{
    return on.baseline != NULL && records[place] == NO_RECORD ? class_of(*on.baseline, records_of_baseline[place])
                                                              : class_of(on, records[place]);
}

/* The pixels of each class in the window at hand. */
static void count_classes(lent_map on, window at, uint64_t totals[CLASSES])
{
    for (uint64_t i = 0; i < CLASSES; i++)
        totals[i] = 0;
    for (uint64_t i = 0; i < (uint64_t)at.h * at.w; i++)
        totals[class_at(on, i)]++;
}

/* 1, yes; or where no pixel has the class: 2, it cannot tell, if some were not seen, and 0, no, if all were. */
static lutniorad_answer ask_exist(lent_map on, window at, uint8_t of_class, uint16_t *border, size_t n_border)
{
    uint64_t totals[CLASSES];
    lutniorad_answer begun = begin_question(on, on.m, at, border, n_border);
    if (begun.refusal != 0)
        return begun;
    count_classes(on, at, totals);
    if (totals[of_class] > 0)
        return answered(1, 0);
    return answered(totals[NOT_SEEN] > 0 ? 2 : 0, 0);
}

lutniorad_answer reference_exist(uint32_t m,
                                 const uint32_t *keys, size_t n_keys,
                                 const uint8_t *classes, size_t n_classes,
                                 uint16_t r0, uint16_t c0, uint16_t h, uint16_t w,
                                 uint8_t of_class,
                                 uint16_t *border, size_t n_border)
{
    window at = {r0, c0, h, w};
    return ask_exist(complete_map(m, keys, n_keys, classes, n_classes), at, of_class, border, n_border);
}

lutniorad_answer reference_sparse_exist(uint32_t m, uint8_t background,
                                        const uint32_t *keys, size_t n_keys,
                                        const uint8_t *classes, size_t n_classes,
                                        uint16_t r0, uint16_t c0, uint16_t h, uint16_t w,
                                        uint8_t of_class,
                                        uint16_t *border, size_t n_border)
{
    window at = {r0, c0, h, w};
    return ask_exist(sparse_map(m, keys, n_keys, classes, n_classes, background), at, of_class, border, n_border);
}

lutniorad_answer reference_overlay_exist(uint32_t m,
                                         const uint32_t *keys, size_t n_keys,
                                         const uint8_t *classes, size_t n_classes,
                                         uint32_t base_m,
                                         const uint32_t *base_keys, size_t n_base_keys,
                                         const uint8_t *base_classes, size_t n_base_classes,
                                         uint16_t r0, uint16_t c0, uint16_t h, uint16_t w,
                                         uint8_t of_class,
                                         uint16_t *border, size_t n_border)
{
    window at = {r0, c0, h, w};
    lent_map baseline = complete_map(base_m, base_keys, n_base_keys, base_classes, n_base_classes);
    return ask_exist(overlay(m, keys, n_keys, classes, n_classes, &baseline), at, of_class, border, n_border);
}

static lutniorad_answer report_window(lent_map on, window at, uint16_t *border, size_t n_border, uint32_t *totals,
                                      size_t n_totals)
{
    uint64_t counted[CLASSES];
    lutniorad_answer begun = begin_question(on, on.m, at, border, n_border);
    if (begun.refusal != 0)
        return begun;
    if (n_totals < CLASSES)
        return refused(8, CLASSES);
    count_classes(on, at, counted);
    for (uint64_t i = 0; i < CLASSES; i++)
        totals[i] = (uint32_t)counted[i];
    return answered((uint64_t)at.h * at.w, 0);
}

lutniorad_answer reference_report(uint32_t m,
                                  const uint32_t *keys, size_t n_keys,
                                  const uint8_t *classes, size_t n_classes,
                                  uint16_t r0, uint16_t c0, uint16_t h, uint16_t w,
                                  uint16_t *border, size_t n_border,
                                  uint32_t *totals, size_t n_totals)
{
    window at = {r0, c0, h, w};
    return report_window(complete_map(m, keys, n_keys, classes, n_classes), at, border, n_border, totals, n_totals);
}

lutniorad_answer reference_sparse_report(uint32_t m, uint8_t background,
                                         const uint32_t *keys, size_t n_keys,
                                         const uint8_t *classes, size_t n_classes,
                                         uint16_t r0, uint16_t c0, uint16_t h, uint16_t w,
                                         uint16_t *border, size_t n_border,
                                         uint32_t *totals, size_t n_totals)
{
    window at = {r0, c0, h, w};
    return report_window(sparse_map(m, keys, n_keys, classes, n_classes, background), at, border, n_border, totals,
                         n_totals);
}

lutniorad_answer reference_overlay_report(uint32_t m,
                                          const uint32_t *keys, size_t n_keys,
                                          const uint8_t *classes, size_t n_classes,
                                          uint32_t base_m,
                                          const uint32_t *base_keys, size_t n_base_keys,
                                          const uint8_t *base_classes, size_t n_base_classes,
                                          uint16_t r0, uint16_t c0, uint16_t h, uint16_t w,
                                          uint16_t *border, size_t n_border,
                                          uint32_t *totals, size_t n_totals)
{
    window at = {r0, c0, h, w};
    lent_map baseline = complete_map(base_m, base_keys, n_base_keys, base_classes, n_base_classes);
    return report_window(overlay(m, keys, n_keys, classes, n_classes, &baseline), at, border, n_border, totals,
                         n_totals);
}

/* A block that lies in one record, or with all its pixels in none: then that is NO_RECORD. */
typedef struct {
    uint32_t key, record;
} piece;

/* Room for as many as any window has pixels. */
typedef struct {
    uint64_t n;
    piece pieces[MOST_PIXELS];
} piece_list;

/* Has the block no pixel in a record? */
static bool lies_in_gap(square block, window at)
{
    for (uint64_t row = block.row; row < block.row + block.side; row++)
        for (uint64_t col = block.col; col < block.col + block.side; col++)
            if (records[place_in_raster(at, row, col)] != NO_RECORD)
                return false;
    return true;
}

/*
 * Lists the pieces of a block. Where it lies in one record, or in none with all its pixels, that is the block itself.
 * Otherwise it is cut in four, and so on. What comes of that, in the order of the keys, are the records inside it, for
 * no record is cut; and the largest blocks in its gaps, of which each gap has the fewest.
 */
static void list_pieces(uint32_t m, square block, window at, piece_list *list)
{
    uint32_t around = record_around(block, at);
    uint64_t half = block.side / 2;
    if (around != NO_RECORD || lies_in_gap(block, at)) {
        piece whole = {(uint32_t)key_of(block, side_of_picture(m)), around};
        list->pieces[list->n++] = whole;
        return;
    }
    for (uint64_t i = 0; i < 4; i++) {
        square quadrant = {block.row + i / 2 * half, block.col + i % 2 * half, half};
        list_pieces(m, quadrant, at, list);
    }
}

/* Leaves those of the class in the list. */
static void keep_class(lent_map on, uint8_t of_class, piece_list *list)
{
    uint64_t kept = 0;
    for (uint64_t i = 0; i < list->n; i++)
        if (class_of(on, list->pieces[i].record) == of_class)
            list->pieces[kept++] = list->pieces[i];
    list->n = kept;
}

static uint64_t count_class(lent_map on, square block, window at, uint8_t of_class)
{
    uint64_t n = 0;
    for (uint64_t row = block.row; row < block.row + block.side; row++)
        for (uint64_t col = block.col; col < block.col + block.side; col++)
            n += class_at(on, place_in_raster(at, row, col)) == of_class;
    return n;
}

/*
 * Lists the fewest blocks that make up the block's pixels of the class. That is the block itself, where it has no other
 * pixel; and otherwise those of its quadrants, one after another, for no block of the class is then larger than these.
 */
static void list_of_class(lent_map on, square block, window at, uint8_t of_class, piece_list *list)
{
    uint64_t of_it = count_class(on, block, at, of_class), half = block.side / 2;
    if (of_it == block.side * block.side) {
        piece whole = {(uint32_t)key_of(block, side_of_picture(on.m)), NO_RECORD};
        list->pieces[list->n++] = whole;
        return;
    }
    for (uint64_t i = 0; of_it > 0 && i < 4; i++) {
        square quadrant = {block.row + i / 2 * half, block.col + i % 2 * half, half};
        list_of_class(on, quadrant, at, of_class, list);
    }
}

/* Of a window on one map by its records, and of one on an overlay by its pixels. */
static void list_selected(lent_map on, uint32_t tile, window at, uint8_t of_class, piece_list *list)
{
    const block_list *maximal = list_maximal(at, side_of_tile(tile));
    list->n = 0;
    for (uint64_t i = 0; i < maximal->n; i++)
        if (on.baseline != NULL)
            list_of_class(on, maximal->blocks[i], at, of_class, list);
        else
            list_pieces(on.m, maximal->blocks[i], at, list);
    if (on.baseline == NULL)
        keep_class(on, of_class, list);
}

static lutniorad_answer select_in(lent_map on, uint32_t tile, window at, uint8_t of_class, uint16_t *border,
                                  size_t n_border, uint32_t *out, size_t n_out)
{
    static piece_list list;
    lutniorad_answer begun = begin_question(on, tile, at, border, n_border);
    if (begun.refusal != 0)
        return begun;
    list_selected(on, tile, at, of_class, &list);
    if (n_out < list.n)
        return refused(8, list.n);
    for (uint64_t i = 0; i < list.n; i++)
        out[i] = list.pieces[i].key;
    return answered(list.n, 0);
}

lutniorad_answer reference_select_tiled(uint32_t m, uint32_t tile,
                                        const uint32_t *keys, size_t n_keys,
                                        const uint8_t *classes, size_t n_classes,
                                        uint16_t r0, uint16_t c0, uint16_t h, uint16_t w,
                                        uint8_t of_class,
                                        uint16_t *border, size_t n_border,
                                        uint32_t *out, size_t n_out)
{
    window at = {r0, c0, h, w};
    return select_in(complete_map(m, keys, n_keys, classes, n_classes), tile, at, of_class, border, n_border, out,
                     n_out);
}

lutniorad_answer reference_sparse_select(uint32_t m, uint32_t tile, uint8_t background,
                                         const uint32_t *keys, size_t n_keys,
                                         const uint8_t *classes, size_t n_classes,
                                         uint16_t r0, uint16_t c0, uint16_t h, uint16_t w,
                                         uint8_t of_class,
                                         uint16_t *border, size_t n_border,
                                         uint32_t *out, size_t n_out)
{
    window at = {r0, c0, h, w};
    return select_in(sparse_map(m, keys, n_keys, classes, n_classes, background), tile, at, of_class, border, n_border,
                     out, n_out);
}

lutniorad_answer reference_select(uint32_t m,
                                  const uint32_t *keys, size_t n_keys,
                                  const uint8_t *classes, size_t n_classes,
                                  uint16_t r0, uint16_t c0, uint16_t h, uint16_t w,
                                  uint8_t of_class,
                                  uint16_t *border, size_t n_border,
                                  uint32_t *out, size_t n_out)
{
    return reference_select_tiled(m, m, keys, n_keys, classes, n_classes, r0, c0, h, w, of_class, border, n_border, out,
                                  n_out);
}

lutniorad_answer reference_overlay_select(uint32_t m,
                                          const uint32_t *keys, size_t n_keys,
                                          const uint8_t *classes, size_t n_classes,
                                          uint32_t base_m,
                                          const uint32_t *base_keys, size_t n_base_keys,
                                          const uint8_t *base_classes, size_t n_base_classes,
                                          uint16_t r0, uint16_t c0, uint16_t h, uint16_t w,
                                          uint8_t of_class,
                                          uint16_t *border, size_t n_border,
                                          uint32_t *out, size_t n_out)
{
    window at = {r0, c0, h, w};
    lent_map baseline = complete_map(base_m, base_keys, n_base_keys, base_classes, n_base_classes);
    return select_in(overlay(m, keys, n_keys, classes, n_classes, &baseline), m, at, of_class, border, n_border, out,
                     n_out);
}

/* ---- A part of an overlay ---- */

static bool shares_pixels(square a, square b)
{
    return a.row < b.row + b.side && b.row < a.row + a.side && a.col < b.col + b.side && b.col < a.col + a.side;
}

/* The records of a sound map that share pixels with the block. */
static lutniorad_part part_of(lent_map on, uint32_t map, square block)
{
    uint64_t digits[MOST_DIGITS];
    lutniorad_part part = {0, 0, map, 0, 0};
    for (uint64_t i = on.n_keys; i > 0; i--) {
        digits_of(on.keys[i - 1], on.m, digits);
        if (shares_pixels(block_of(digits, on.m), block)) {
            part.first = (uint32_t)(i - 1);
            part.count++;
        }
    }
    return part;
}

static lutniorad_part no_part(lutniorad_answer refusal)
{
    lutniorad_part part = {refusal.refusal, refusal.place, refusal.first, 0, 0};
    return part;
}

lutniorad_part reference_overlay_part(uint32_t m,
                                      const uint32_t *keys, size_t n_keys,
                                      const uint8_t *classes, size_t n_classes,
                                      uint32_t base_m,
                                      const uint32_t *base_keys, size_t n_base_keys,
                                      const uint8_t *base_classes, size_t n_base_classes,
                                      uint32_t key)
{
    uint64_t digits[MOST_DIGITS];
    lent_map baseline = complete_map(base_m, base_keys, n_base_keys, base_classes, n_base_classes);
    lent_map on = overlay(m, keys, n_keys, classes, n_classes, &baseline);
    lutniorad_answer check = check_overlay(on);
    if (check.refusal != 0)
        return no_part(check);
    if (!digits_of(key, m, digits) || !has_the_form(digits, m))
        return no_part(refused(27, 0));
    square block = block_of(digits, m);
    lutniorad_part of_today = part_of(on, TODAY, block);
    return of_today.count > 0 ? of_today : part_of(baseline, BASELINE, block);
}

/* ---- A month ---- */

lutniorad_answer reference_month_clear(uint32_t m,
                                       uint16_t r0, uint16_t c0, uint16_t h, uint16_t w,
                                       uint64_t *table, size_t n_table)
{
    window at = {r0, c0, h, w};
    if (m > MOST_DIGITS)
        return refused(1, 0);
    if (!is_inside(at, side_of_picture(m)))
        return refused(6, 0);
    if (n_table < TABLE_CELLS)
        return refused(8, TABLE_CELLS);
    for (uint64_t i = 0; i < TABLE_CELLS; i++)
        table[i] = 0;
    table[TABLE_M] = m;
    table[TABLE_R0] = r0;
    table[TABLE_C0] = c0;
    table[TABLE_H] = h;
    table[TABLE_W] = w;
    return answered(0, 0);
}

/* False where the four cells are no window inside the picture. */
static bool window_of_table(const uint64_t *table, uint64_t side_of_all, window *at)
{
    for (uint64_t i = TABLE_R0; i <= TABLE_W; i++)
        if (table[i] > UINT16_MAX)
            return false;
    at->r0 = (uint16_t)table[TABLE_R0];
    at->c0 = (uint16_t)table[TABLE_C0];
    at->h = (uint16_t)table[TABLE_H];
    at->w = (uint16_t)table[TABLE_W];
    return is_inside(*at, side_of_all);
}

/* At most 1,000 maps, and of each class no more maps than that, nor more pixels than these have in the window. */
static bool numbers_are_possible(const uint64_t *table, window at)
{
    uint64_t maps = table[TABLE_MAPS];
    if (maps > MOST_MAPS)
        return false;
    for (uint64_t k = 0; k < CLASSES; k++) {
        const uint64_t *of_class = table + TABLE_CLASSES + k * CELLS_OF_CLASS;
        if (of_class[OF_CLASS_MAPS] > maps || of_class[OF_CLASS_SUM] > maps * at.h * at.w)
            return false;
    }
    return true;
}

/* What the table alone decides for a map of this m, from 15 on; with refusal 0 its window. */
static lutniorad_answer check_table(uint32_t m, const uint64_t *table, window *at)
{
    if (table[TABLE_M] != m)
        return refused(15, 0);
    if (!window_of_table(table, side_of_picture(m), at) || !numbers_are_possible(table, *at))
        return refused(26, 0);
    if (table[TABLE_MAPS] == MOST_MAPS)
        return refused(16, 0);
    return answered(0, 0);
}

/* Of the first map, least and greatest are set. */
static void add_pixels(uint64_t of_class[CELLS_OF_CLASS], bool is_first, uint64_t pixels)
{
    of_class[OF_CLASS_LEAST] = is_first ? pixels : lesser(of_class[OF_CLASS_LEAST], pixels);
    of_class[OF_CLASS_GREATEST] = is_first ? pixels : greater(of_class[OF_CLASS_GREATEST], pixels);
    of_class[OF_CLASS_SUM] += pixels;
    of_class[OF_CLASS_MAPS] += pixels > 0;
}

lutniorad_answer reference_month_add(uint32_t m,
                                     const uint32_t *keys, size_t n_keys,
                                     const uint8_t *classes, size_t n_classes,
                                     uint16_t *border, size_t n_border,
                                     uint64_t *table, size_t n_table)
{
    uint64_t pixels[CLASSES];
    window at;
    lent_map on = complete_map(m, keys, n_keys, classes, n_classes);
    lutniorad_answer check = check_map(on);
    if (check.refusal != 0)
        return check;
    if (n_table < TABLE_CELLS)
        return refused(8, TABLE_CELLS);
    lutniorad_answer of_table = check_table(m, table, &at);
    if (of_table.refusal != 0)
        return of_table;
    if (n_border < at.w)
        return refused(7, at.w);
    begin_answer(on, at, border);
    count_classes(on, at, pixels);
    for (uint64_t k = 0; k < CLASSES; k++)
        add_pixels(table + TABLE_CLASSES + k * CELLS_OF_CLASS, table[TABLE_MAPS] == 0, pixels[k]);
    table[TABLE_MAPS]++;
    return answered(table[TABLE_MAPS], 0);
}

/* ---- The house file ---- */

/* A number of four bytes, the least significant first. */
static uint64_t number_at(const uint8_t *bytes, uint64_t offset)
{
    uint64_t number = 0;
    for (uint64_t i = 4; i > 0; i--)
        number = 256 * number + bytes[offset + i - 1];
    return number;
}

static void put_number(uint8_t *bytes, uint64_t offset, uint64_t number)
{
    for (uint64_t i = 0; i < 4; i++) {
        bytes[offset + i] = (uint8_t)(number % 256);
        number = number / 256;
    }
}

/* What the header alone decides of a file of n bytes: m and Q, or the refusal. */
static lutniorad_answer read_header(map_kind kind, const uint8_t *file, uint64_t n)
{
    if (n < HEADER || number_at(file, 0) != n)
        return refused(9, 0);
    uint64_t m = number_at(file, 4);
    uint64_t q = number_at(file, 8);
    lutniorad_answer size = size_of_map(kind, m, q, q);
    if (size.refusal != 0)
        return size;
    if (n != HEADER + 5 * q)
        return refused(9, 8);
    if (number_at(file, 12) != HEADER)
        return refused(9, 12);
    if (number_at(file, 16) != HEADER + 4 * q)
        return refused(9, 16);
    return answered(m, q);
}

static lutniorad_answer read_map(map_kind kind, const uint8_t *file, size_t n, uint32_t *keys, size_t n_keys,
                                 uint8_t *classes, size_t n_classes)
{
    lutniorad_answer header = read_header(kind, file, n);
    if (header.refusal != 0)
        return header;
    uint64_t q = header.second;
    if (n_keys < q || n_classes < q)
        return refused(8, q);
    for (uint64_t i = 0; i < q; i++) {
        keys[i] = (uint32_t)number_at(file, HEADER + 4 * i);
        classes[i] = file[HEADER + 4 * q + i];
    }
    return header;
}

lutniorad_answer reference_read(const uint8_t *file, size_t n,
                                uint32_t *keys, size_t n_keys,
                                uint8_t *classes, size_t n_classes)
{
    return read_map(COMPLETE, file, n, keys, n_keys, classes, n_classes);
}

lutniorad_answer reference_sparse_read(const uint8_t *file, size_t n,
                                       uint32_t *keys, size_t n_keys,
                                       uint8_t *classes, size_t n_classes)
{
    return read_map(SPARSE, file, n, keys, n_keys, classes, n_classes);
}

static lutniorad_answer write_map(lent_map on, uint8_t *out, size_t n_out)
{
    lutniorad_answer size = size_of_map(on.kind, on.m, on.n_keys, on.n_classes);
    if (size.refusal != 0)
        return size;
    uint64_t q = on.n_keys;
    uint64_t length = HEADER + 5 * q;
    if (n_out < length)
        return refused(8, length);
    put_number(out, 0, length);
    put_number(out, 4, on.m);
    put_number(out, 8, q);
    put_number(out, 12, HEADER);
    put_number(out, 16, HEADER + 4 * q);
    for (uint64_t i = 0; i < q; i++) {
        put_number(out, HEADER + 4 * i, on.keys[i]);
        out[HEADER + 4 * q + i] = on.classes[i];
    }
    return answered(length, 0);
}

lutniorad_answer reference_write(uint32_t m,
                                 const uint32_t *keys, size_t n_keys,
                                 const uint8_t *classes, size_t n_classes,
                                 uint8_t *out, size_t n_out)
{
    return write_map(complete_map(m, keys, n_keys, classes, n_classes), out, n_out);
}

lutniorad_answer reference_sparse_write(uint32_t m,
                                        const uint32_t *keys, size_t n_keys,
                                        const uint8_t *classes, size_t n_classes,
                                        uint8_t *out, size_t n_out)
{
    return write_map(sparse_map(m, keys, n_keys, classes, n_classes, 0), out, n_out);
}

/* ---- Salvage ---- */

enum { DROPPED_FOR_KEY = 3, DROPPED_FOR_PLACE = 4, FILLED = 5, CELLS_OF_ENTRY = 2 };

/*
 * The pixels of the largest picture, numbered in the order of their keys: of each block first those of its quadrant NW,
 * then NE, SW, SE. The pixels of a smaller picture have the numbers that they have in the corner of this one.
 */
static uint32_t numbers[MOST_PIXELS];
enum { MOST_SIDE = 4096 };

static void number_pixels(square block, uint32_t *next)
{
    uint64_t half = block.side / 2;
    if (block.side == 1) {
        numbers[block.row * MOST_SIDE + block.col] = (*next)++;
        return;
    }
    for (uint64_t i = 0; i < 4; i++) {
        square quadrant = {block.row + i / 2 * half, block.col + i % 2 * half, half};
        number_pixels(quadrant, next);
    }
}

static uint64_t number_of(uint64_t row, uint64_t col)
{
    static uint32_t numbered;
    square picture = {0, 0, MOST_SIDE};
    if (numbered == 0)
        number_pixels(picture, &numbered);
    return numbers[row * MOST_SIDE + col];
}

/* The greatest number of the block's pixels. */
static uint64_t last_number(square block)
{
    uint64_t last = 0;
    for (uint64_t row = block.row; row < block.row + block.side; row++)
        for (uint64_t col = block.col; col < block.col + block.side; col++)
            last = greater(last, number_of(row, col));
    return last;
}

/* What is made of a broken map. */
typedef struct {
    uint64_t dropped_for[MOST_RECORDS]; /* of each record, or 0 where it is kept */
    uint64_t kept;                      /* how many are, and of each of these its index and its key */
    uint64_t indices[MOST_RECORDS];
    uint32_t keys[MOST_RECORDS];
    piece_list list; /* of the whole picture: the records that are kept, and the blocks that are filled */
} salvaged;

/* A record is dropped where a pixel of one that is kept comes behind its first pixel, which is its corner, or is it. */
static uint64_t judge(uint32_t m, uint32_t key, uint64_t *beyond_kept)
{
    uint64_t digits[MOST_DIGITS];
    if (!digits_of(key, m, digits) || !has_the_form(digits, m))
        return DROPPED_FOR_KEY;
    square block = block_of(digits, m);
    if (number_of(block.row, block.col) < *beyond_kept)
        return DROPPED_FOR_PLACE;
    *beyond_kept = last_number(block) + 1;
    return 0;
}

static void keep_records(lent_map on, salvaged *to)
{
    uint64_t beyond_kept = 0;
    to->kept = 0;
    for (uint64_t i = 0; i < on.n_keys; i++) {
        to->dropped_for[i] = judge(on.m, on.keys[i], &beyond_kept);
        if (to->dropped_for[i] == 0) {
            to->indices[to->kept] = i;
            to->keys[to->kept++] = on.keys[i];
        }
    }
}

/* By the keys alone. As with what is painted, what was made last is kept. */
static const salvaged *salvage_keys(lent_map on)
{
    static salvaged made;
    static made_for last;
    uint16_t side = (uint16_t)side_of_picture(on.m);
    window all = {0, 0, side, side};
    square picture = {0, 0, side};
    if (is_for(&last, on, all))
        return &made;
    keep_records(on, &made);
    paint_records(sparse_map(on.m, made.keys, made.kept, on.classes, made.kept, NOT_SEEN), all);
    made.list.n = 0;
    list_pieces(on.m, picture, all, &made.list);
    keep_for(&last, on, all);
    return &made;
}

static void put_entry(uint32_t *log, uint64_t *entries, uint64_t of, uint64_t number)
{
    log[CELLS_OF_ENTRY * *entries] = (uint32_t)of;
    log[CELLS_OF_ENTRY * *entries + 1] = (uint32_t)number;
    (*entries)++;
}

/* Logs the blocks that are filled, from a piece on up to one that is kept. Returns that one, or the end. */
static uint64_t log_filled(const piece_list *list, uint64_t from, uint32_t *log, uint64_t *entries)
{
    while (from < list->n && list->pieces[from].record == NO_RECORD)
        put_entry(log, entries, list->pieces[from++].key, FILLED);
    return from;
}

/* For each record in turn why it is dropped; or it is kept, and before that what is filled before it. */
static void write_log(const salvaged *made, uint64_t n, uint32_t *log)
{
    uint64_t entries = 0, next = 0;
    for (uint64_t i = 0; i < n; i++)
        if (made->dropped_for[i] != 0)
            put_entry(log, &entries, i, made->dropped_for[i]);
        else
            next = log_filled(&made->list, next, log, &entries) + 1;
    log_filled(&made->list, next, log, &entries);
}

static void write_pieces(const salvaged *made, const uint8_t *classes, uint32_t *out_keys, uint8_t *out_classes)
{
    for (uint64_t i = 0; i < made->list.n; i++) {
        piece p = made->list.pieces[i];
        out_keys[i] = p.key;
        out_classes[i] = p.record == NO_RECORD ? NOT_SEEN : classes[made->indices[p.record]];
    }
}

lutniorad_answer reference_salvage(uint32_t m,
                                   const uint32_t *keys, size_t n_keys,
                                   const uint8_t *classes, size_t n_classes,
                                   uint32_t *out_keys, size_t n_out_keys,
                                   uint8_t *out_classes, size_t n_out_classes,
                                   uint32_t *log, size_t n_log)
{
    lutniorad_answer size = size_of_map(SPARSE, m, n_keys, n_classes);
    if (size.refusal != 0)
        return size;
    const salvaged *made = salvage_keys(sparse_map(m, keys, n_keys, classes, n_classes, NOT_SEEN));
    uint64_t q = made->list.n, dropped = n_keys - made->kept, filled = q - made->kept, entries = dropped + filled;
    if (q > MOST_RECORDS)
        return refused(2, 0);
    if (n_out_keys < q || n_out_classes < q)
        return refused(8, q);
    if (n_log < CELLS_OF_ENTRY * entries)
        return refused(8, CELLS_OF_ENTRY * entries);
    write_pieces(made, classes, out_keys, out_classes);
    write_log(made, n_keys, log);
    return answered(q, entries);
}
