#include "promises.h"

#include "harness.h"

static uint32_t raster[MOST_PIXELS];

/* The raster of the window's records. */
static void paint_map(const map *a, bool sparse, window at)
{
    if (sparse)
        require(reference_sparse_raster(a->m, a->keys, a->q, at, raster), "a sparse map paints a pixel twice");
    else
        require(reference_raster(a->m, a->keys, a->q, at, raster), "a sound map does not paint every pixel once");
}

/* Two fewer than 4(w + h) + wh/4^tile: so without a tile, where wh/4^m is at most 1, fewer than 4(w + h). */
static size_t most_blocks(uint32_t tile, window at)
{
    size_t tiles = (size_t)at.h * at.w;
    for (uint32_t i = 0; i < tile; i++)
        tiles /= 4;
    return 4 * ((size_t)at.w + at.h) + tiles - 2;
}

/* No more keys than that, `apart` cells from one to the next, and each that of a maximal block. */
static void require_maximal(uint32_t m, uint32_t tile, window at, const uint32_t *keys, size_t apart, size_t n)
{
    require(n <= most_blocks(tile, at), "there are more of them than 4(w + h) + wh/4^tile - 2");
    for (size_t i = 0; i < n; i++)
        require(reference_maximal(m, tile, keys[apart * i], at), "there is a key of no maximal block");
}

void require_decomposed(uint32_t m, uint32_t tile, window at, const uint32_t *keys, size_t n)
{
    require_maximal(m, tile, at, keys, 1, n);
    require(reference_raster(m, keys, n, at, raster), "the blocks do not have each pixel of the window once");
    for (size_t p = 0; tile == 0 && p < (size_t)at.h * at.w; p++)
        require(raster[p] == p, "with the tile 0 the blocks are not the pixels, row by row");
}

/* Marks the records of the openings as handed out, and returns how many they are. */
static size_t mark_handed_out(size_t q, const uint32_t *openings, size_t n, bool *handed_out)
{
    size_t records = 0;
    for (size_t i = 0; i < q; i++)
        handed_out[i] = false;
    for (size_t i = 0; i < n; i++) {
        size_t first = openings[3 * i + 1], count = openings[3 * i + 2];
        require(first + count <= q, "an opening hands out records that the map does not have");
        for (size_t k = first; k < first + count; k++) {
            require(!handed_out[k], "a record is handed out twice");
            handed_out[k] = true;
        }
        records += count;
    }
    return records;
}

/* With the raster of the window's records. */
static void require_just_these(size_t q, window at, const bool *handed_out)
{
    static bool has_a_pixel[MOST_RECORDS];
    for (size_t i = 0; i < q; i++)
        has_a_pixel[i] = false;
    for (size_t p = 0; p < (size_t)at.h * at.w; p++)
        if (raster[p] != NO_RECORD)
            has_a_pixel[raster[p]] = true;
    for (size_t i = 0; i < q; i++)
        require(has_a_pixel[i] == handed_out[i], "another record is handed out than those with a pixel in the window");
}

/* ---- Empty openings ---- */

/* The maximal blocks of the window at hand, as many as the independent program lists; and where each pixel lies. */
static uint32_t maximal[LUTNIORAD_DECOMPOSE_TILED_CELLS(4, LUTNIORAD_MOST_SIDE, LUTNIORAD_MOST_SIDE)];
static uint32_t block_raster[MOST_PIXELS];

static size_t list_maximal(uint32_t m, uint32_t tile, window at)
{
    size_t n = reference_decompose_tiled(m, tile, at.r0, at.c0, at.h, at.w, maximal, COUNT(maximal)).first;
    require(reference_raster(m, maximal, n, at, block_raster), "the maximal blocks do not have each pixel once");
    return n;
}

/* With the raster of the window's records. Returns how many openings are empty. */
static size_t require_empty(uint32_t m, uint32_t tile, window at, const uint32_t *openings, size_t n)
{
    static bool has_record[COUNT(maximal)];
    size_t blocks = list_maximal(m, tile, at), k = 0, empty = 0;
    for (size_t i = 0; i < blocks; i++)
        has_record[i] = false;
    for (size_t p = 0; p < (size_t)at.h * at.w; p++)
        if (raster[p] != NO_RECORD)
            has_record[block_raster[p]] = true;
    for (size_t i = 0; i < blocks; i++) {
        const bool opened = k < n && openings[3 * k] == maximal[i];
        require(opened || has_record[i], "a maximal block without a record is not opened");
        if (opened) {
            require(has_record[i] == (openings[3 * k + 2] > 0), "a block is opened as empty, and it is not");
            require(has_record[i] || openings[3 * k + 1] == 0, "an empty opening has a first record");
            empty += !has_record[i];
            k++;
        }
    }
    require(k == n, "the openings are not in the order of the maximal blocks");
    return empty;
}

/* ---- The fewest blocks ---- */

/* Where there are few maximal blocks, in a window that is small enough to go through again, all choices are tried. */
enum { FEW_BLOCKS = 12, FEW_PIXELS = 1 << 14 };

/* A choice of blocks: bit b for block b. */
typedef uint16_t choice;

static int size_of(choice blocks)
{
    int n = 0;
    for (; blocks != 0; blocks = (choice)(blocks / 2))
        n += blocks % 2;
    return n;
}

/* With the raster of the window's records: for each record that has a pixel in the window, the blocks that bring it. */
static size_t blocks_that_bring(const map *a, window at, const uint32_t *blocks, size_t n, choice *bring)
{
    static choice of_record[MOST_RECORDS];
    size_t n_bring = 0;
    require(reference_raster(a->m, blocks, n, at, block_raster), "the maximal blocks do not have each pixel once");
    for (size_t i = 0; i < a->q; i++)
        of_record[i] = 0;
    for (size_t p = 0; p < (size_t)at.h * at.w; p++)
        if (raster[p] != NO_RECORD)
            of_record[raster[p]] |= (choice)(1 << block_raster[p]);
    for (size_t i = 0; i < a->q; i++) {
        bool is_new = of_record[i] != 0;
        for (size_t k = 0; k < n_bring; k++)
            is_new = is_new && bring[k] != of_record[i];
        if (is_new)
            bring[n_bring++] = of_record[i];
    }
    return n_bring;
}

static bool brings_all(choice blocks, const choice *bring, size_t n_bring)
{
    for (size_t k = 0; k < n_bring; k++)
        if ((blocks & bring[k]) == 0)
            return false;
    return true;
}

static void require_fewest(const map *a, uint32_t tile, window at, size_t openings)
{
    static choice bring[1 << FEW_BLOCKS];
    uint32_t blocks[FEW_BLOCKS];
    if ((size_t)at.h * at.w > FEW_PIXELS)
        return;
    lutniorad_answer list = reference_decompose_tiled(a->m, tile, at.r0, at.c0, at.h, at.w, blocks, FEW_BLOCKS);
    if (list.refusal != 0)
        return; /* there are more blocks */
    size_t n_bring = blocks_that_bring(a, at, blocks, list.first, bring);
    for (size_t k = 0; k < (size_t)1 << list.first; k++)
        if (size_of((choice)k) < (int)openings)
            require(!brings_all((choice)k, bring, n_bring), "fewer maximal blocks would bring all records");
}

/* Each brings a record. */
static void require_records(const uint32_t *openings, size_t n)
{
    for (size_t i = 0; i < n; i++)
        require(openings[3 * i + 2] >= 1, "an opening hands out no record");
}

void require_opened(const map *a, bool sparse, uint32_t tile, window at, lutniorad_answer answer,
                    const uint32_t *openings)
{
    static bool handed_out[MOST_RECORDS];
    size_t n = answer.first;
    require_maximal(a->m, tile, at, openings, 3, n);
    size_t records = mark_handed_out(a->q, openings, n, handed_out);
    require(records == answer.second, "the openings hand out another number of records than the answer says");
    paint_map(a, sparse, at);
    require_just_these(a->q, at, handed_out);
    if (sparse)
        n -= require_empty(a->m, tile, at, openings, n);
    else
        require_records(openings, n);
    require_fewest(a, tile, at, n);
}

/* ---- Reasons ---- */

/* The library's lists of the window at hand: its openings, of three cells each, and its maximal blocks. */
static uint32_t openings_of_window[LUTNIORAD_OPEN_CELLS(LUTNIORAD_MOST_SIDE, LUTNIORAD_MOST_SIDE)];
static uint32_t blocks_of_window[LUTNIORAD_DECOMPOSE_CELLS(LUTNIORAD_MOST_SIDE, LUTNIORAD_MOST_SIDE)];
static size_t n_openings, n_blocks;

static void list_window(const map *a, window at)
{
    static uint16_t border[LUTNIORAD_MOST_SIDE];
    lutniorad_answer opened = lutniorad_open(a->m, a->keys, a->q, a->classes, a->q, at.r0, at.c0, at.h, at.w, border,
                                             COUNT(border), openings_of_window, COUNT(openings_of_window));
    lutniorad_answer cut =
        lutniorad_decompose(a->m, at.r0, at.c0, at.h, at.w, blocks_of_window, COUNT(blocks_of_window));
    require(opened.refusal == 0 && cut.refusal == 0, "a window is not refused here, but when it is opened or cut");
    n_openings = opened.first;
    n_blocks = cut.first;
}

/* By opening `number` and no other; where there is none of that number, by none at all. */
static bool is_handed_out_just_by(size_t number, uint32_t record)
{
    for (size_t i = 0; i < n_openings; i++) {
        uint32_t first = openings_of_window[3 * i + 1], count = openings_of_window[3 * i + 2];
        bool hands_out = first <= record && record - first < count;
        if (hands_out != (i == number))
            return false;
    }
    return true;
}

/* As with a record that is handed out. */
static bool is_opened_just_by(size_t number, uint32_t key)
{
    for (size_t i = 0; i < n_openings; i++)
        if ((openings_of_window[3 * i] == key) != (i == number))
            return false;
    return true;
}

/* Of a key that is not in the list, as many as there are. */
static size_t place_of_block(uint32_t key)
{
    size_t place = 0;
    while (place < n_blocks && blocks_of_window[place] != key)
        place++;
    return place;
}

/* All blocks in a block of side 2^i, and no others, have a key from its own on to before 5^i beyond it. */
static bool lies_in_block(uint32_t m, uint32_t key, uint32_t around)
{
    uint32_t keys = 1;
    for (size_t side = side_of_block(m, around); side > 1; side /= 2)
        keys *= 5;
    return key >= around && key - around < keys;
}

void require_said_of_record(const map *a, window at, uint32_t record, lutniorad_reason reason)
{
    const bool handed_out = reason.said == LUTNIORAD_HANDED_OUT;
    if (reason.refusal == LUTNIORAD_NO_RECORD)
        require(record >= a->q, "a record that the map has is refused");
    if (reason.refusal != 0)
        return;
    list_window(a, at);
    require(record < a->q && reason.record == record, "another record comes back than the one asked for");
    require(handed_out || (LUTNIORAD_NORTH <= reason.said && reason.said <= LUTNIORAD_EAST),
            "something else is said than can be of a record");
    require(handed_out ? reason.opening < n_openings : reason.opening == 0, "there is no opening of this number");
    require(is_handed_out_just_by(handed_out ? reason.opening : n_openings, record),
            "in the list of openings the record is not handed out so");
}

void require_said_of_block(const map *a, window at, uint32_t key, lutniorad_reason reason)
{
    const bool opened = reason.said == LUTNIORAD_OPENED;
    if (reason.refusal != 0 && reason.refusal != LUTNIORAD_NOT_MAXIMAL)
        return;
    list_window(a, at);
    require((reason.refusal == 0) == (place_of_block(key) < n_blocks),
            "a block that is listed as maximal is refused, or another one is not");
    if (reason.refusal != 0)
        return;
    require(opened || reason.said == LUTNIORAD_SKIPPED, "something else is said than can be of a block");
    require(reason.opening < n_openings, "there is no opening of this number");
    require(is_opened_just_by(opened ? reason.opening : n_openings, key), "in the list the block is not opened so");
    if (opened) {
        require(reason.record == 0, "a record is named for a block that is opened");
        return;
    }
    require(reason.record < a->q && is_handed_out_just_by(reason.opening, reason.record),
            "in the list of openings the record around the block is not handed out so");
    require(lies_in_block(a->m, key, a->keys[reason.record]), "the block does not lie in the record");
    require(place_of_block(openings_of_window[3 * reason.opening]) < place_of_block(key),
            "the record is not handed out before the block");
}

/* ---- Queries ---- */

void require_reported(window at, lutniorad_answer answer, const uint32_t *totals)
{
    uint64_t sum = 0;
    for (size_t i = 0; i < CLASSES; i++)
        sum += totals[i];
    require(sum == (uint64_t)at.h * at.w, "the totals do not add up to the pixels of the window");
    require(sum == answer.first, "the totals do not add up to what the answer says");
}

/* Each of a block inside the window, and no larger than a tile. */
static void require_inside(uint32_t m, uint32_t tile, window at, const uint32_t *keys, size_t n)
{
    for (size_t i = 0; i < n; i++) {
        require(reference_lies_in(m, keys[i], at), "there is a key of no block inside the window");
        require(side_of_block(m, keys[i]) <= side_of(tile), "there is a key of a block that is larger than a tile");
    }
}

void require_selected(const map *a, uint32_t tile, window at, const uint32_t *keys, size_t n)
{
    require(n <= a->q + most_blocks(tile, at), "there are more keys than Q + 4(w + h) + wh/4^tile - 2");
    require_inside(a->m, tile, at, keys, n);
}

/* With the raster of the window's records: the class of a pixel, over this background. */
static bool has_class(const map *a, size_t pixel, uint32_t about)
{
    uint8_t is = raster[pixel] == NO_RECORD ? background_of(about) : a->classes[raster[pixel]];
    return is == class_of(about);
}

/* Of a block that begins at this pixel, the one at a place in the order of keys: two bits of that for each halving. */
static size_t pixel_at(window at, size_t first, size_t place)
{
    size_t row = 0, col = 0;
    for (size_t side = 1; place > 0; place /= 4, side *= 2) {
        row += place / 2 % 2 * side;
        col += place % 2 * side;
    }
    return first + row * at.w + col;
}

/*
 * With the raster of the window's records, the fewest blocks that make up the gaps of a block of so many places, which
 * begins at this pixel. From each place in a gap, a block of 4^i places that begins at a multiple of so many, and then
 * the fewest from there on, if all that is in the gap: each i is tried.
 */
static size_t fewest_of_gaps(window at, size_t first, size_t places)
{
    static size_t fewest[FEW_PIXELS + 1], ends[FEW_PIXELS + 1];
    size_t sum = 0;
    fewest[places] = ends[places] = 0;
    for (size_t place = places; place-- > 0;) {
        const bool in_gap = raster[pixel_at(at, first, place)] == NO_RECORD, goes_on = ends[place + 1] > 0;
        const bool begins = in_gap && (place == 0 || raster[pixel_at(at, first, place - 1)] != NO_RECORD);
        fewest[place] = in_gap ? SIZE_MAX : 0;
        ends[place] = !in_gap ? 0 : goes_on ? ends[place + 1] : place + 1;
        for (size_t n = 1; in_gap && place % n == 0 && place + n <= ends[place]; n *= 4)
            if (1 + fewest[place + n] < fewest[place])
                fewest[place] = 1 + fewest[place + n];
        sum += begins ? fewest[place] : 0;
    }
    return sum;
}

/* With the raster of the window's records, in a small window: as many keys as a maximal block must have selected. */
static size_t keys_of_block(const map *a, window at, size_t first, size_t places, uint32_t about)
{
    size_t n = class_of(about) == background_of(about) ? fewest_of_gaps(at, first, places) : 0;
    uint32_t last = NO_RECORD; /* the pixels of a record follow one another in the order of keys */
    for (size_t place = 0; place < places; place++) {
        size_t pixel = pixel_at(at, first, place);
        n += raster[pixel] != NO_RECORD && raster[pixel] != last && has_class(a, pixel, about);
        last = raster[pixel];
    }
    return n;
}

static size_t keys_of_window(const map *a, uint32_t tile, window at, uint32_t about)
{
    size_t blocks = list_maximal(a->m, tile, at), met = 0, sum = 0;
    for (size_t p = 0; p < (size_t)at.h * at.w; p++)
        if (block_raster[p] == met) { /* its first pixel: blocks come by the row and column of their corners */
            size_t side = side_of_block(a->m, maximal[met++]);
            sum += keys_of_block(a, at, p, side * side, about);
        }
    require(met == blocks, "the maximal blocks are not in their order");
    return sum;
}

/* Where each pixel lies among the blocks of the keys that were selected last. */
static uint32_t selected[MOST_PIXELS];

/* Each of a block inside the window, and no larger than a tile; and no pixel in two of them. */
static void paint_selected(uint32_t m, uint32_t tile, window at, const uint32_t *keys, size_t n)
{
    require(n <= (size_t)at.h * at.w, "there are more keys than pixels");
    require_inside(m, tile, at, keys, n);
    require(reference_sparse_raster(m, keys, n, at, selected), "a pixel is selected twice");
}

void require_sparse_selected(const map *a, uint32_t tile, window at, uint32_t about, const uint32_t *keys, size_t n)
{
    const size_t pixels = (size_t)at.h * at.w;
    paint_selected(a->m, tile, at, keys, n);
    paint_map(a, true, at);
    for (size_t p = 0; p < pixels; p++)
        require((selected[p] != NO_RECORD) == has_class(a, p, about),
                "a pixel of the class is not selected, or one of another is");
    if (pixels <= FEW_PIXELS)
        require(n == keys_of_window(a, tile, at, about), "there are other than the fewest blocks of each gap");
}

/* ---- Overlays ---- */

/* With the raster of the baseline's records in the window, and that of today's. */
static bool shows_class(const map *today, const map *base, const uint32_t *of_today, size_t pixel, uint8_t of_class)
{
    return (of_today[pixel] == NO_RECORD ? base->classes[raster[pixel]] : today->classes[of_today[pixel]]) == of_class;
}

/* With the raster of the keys: those of each maximal block are together, in the order of the blocks, and rise. */
static void require_in_order(uint32_t m, window at, const uint32_t *keys, size_t n)
{
    static uint32_t block_of_key[MOST_PIXELS];
    list_maximal(m, m, at);
    for (size_t p = 0; p < (size_t)at.h * at.w; p++)
        if (selected[p] != NO_RECORD)
            block_of_key[selected[p]] = block_raster[p];
    for (size_t i = 1; i < n; i++)
        require(block_of_key[i - 1] < block_of_key[i]
                    || (block_of_key[i - 1] == block_of_key[i] && keys[i - 1] < keys[i]),
                "the keys are not in the order of the maximal blocks, or not rising in one");
}

void require_overlay_selected(const map *today, const map *base, window at, uint8_t of_class, const uint32_t *keys,
                              size_t n)
{
    static uint32_t of_today[MOST_PIXELS];
    const uint32_t m = today->m;
    paint_selected(m, m, at, keys, n);
    require(reference_sparse_raster(m, today->keys, today->q, at, of_today), "today's map paints a pixel twice");
    paint_map(base, false, at);
    for (size_t p = 0; p < (size_t)at.h * at.w; p++)
        require((selected[p] != NO_RECORD) == shows_class(today, base, of_today, p, of_class),
                "a pixel of the class is not selected, or one of another is");
    require_in_order(m, at, keys, n);
    for (size_t i = 0; i + 4 <= n; i++)
        require(!are_quadrants(m, keys + i) || !reference_lies_in(m, parent_of(m, keys[i]), at),
                "four blocks are not joined to one");
}

/* One of them lies in the other. */
static bool overlap(uint32_t m, uint32_t key, uint32_t other)
{
    return lies_in_block(m, key, other) || lies_in_block(m, other, key);
}

void require_part_of_either(const map *today, const map *base, uint32_t key, lutniorad_part part)
{
    const map *a = part.map == LUTNIORAD_TODAY ? today : base;
    require(part.map == LUTNIORAD_TODAY || part.map == LUTNIORAD_BASELINE, "the part is of neither map");
    require(part.count > 0 && part.count <= a->q && part.first <= a->q - part.count, "the part is not in the slice");
    for (size_t i = 0; i < a->q; i++)
        require(overlap(a->m, a->keys[i], key) == (i >= part.first && i - part.first < part.count),
                "a record that overlaps the block is not in the part, or another one is");
    for (size_t i = 0; part.map == LUTNIORAD_BASELINE && i < today->q; i++)
        require(!overlap(today->m, today->keys[i], key), "the part is the baseline's, and a record of today overlaps");
}

/* ---- Queries together ---- */

void require_agreement(uint32_t existence, uint8_t of_class, const uint32_t *totals)
{
    bool is_there = totals[of_class] != 0, all_seen = totals[NOT_SEEN] == 0;
    require((existence == LUTNIORAD_YES) == is_there,
            "a class exists and has no pixel, or has pixels and does not exist");
    require((existence == LUTNIORAD_CANNOT_TELL) == (!is_there && !all_seen),
            "it does not say that it cannot tell, or says so where it can");
    require((existence == LUTNIORAD_NO) == (!is_there && all_seen),
            "it says no where the class is or may be there, or does not say no where it is not");
    require(of_class != NOT_SEEN || existence != LUTNIORAD_CANNOT_TELL, "it cannot tell whether all was seen");
}

void require_as_reported(uint32_t m, const uint32_t *keys, size_t n, uint32_t total)
{
    uint64_t pixels = 0;
    for (size_t i = 0; i < n; i++)
        pixels += (uint64_t)side_of_block(m, keys[i]) * side_of_block(m, keys[i]);
    require(pixels == total, "the blocks that were selected have other pixels than were reported");
}
