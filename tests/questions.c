#include "questions.h"

#include "promises.h"

#include <string.h>

/* A slice of as many cells as the header calls enough is never too short. */
static void require_room(lutniorad_answer answer, size_t n_out, size_t enough_cells)
{
    require(n_out < enough_cells || answer.refusal != LUTNIORAD_SHORT_ROOM, "what is always enough is not enough");
}

static lutniorad_answer compare_blocks(call c, uint32_t tile, size_t enough_cells)
{
    lutniorad_answer answer = compare(c);
    require_room(answer, c.slices[0].length, enough_cells);
    if (answer.refusal == 0)
        require_decomposed(c.m, tile, c.at, left(0), answer.first);
    return answer;
}

lutniorad_answer compare_decompose(uint32_t m, window at, size_t n_out)
{
    call c = {&DECOMPOSE, m, NO_TILE, at, NO_CLASS, {{NULL, n_out}}};
    return compare_blocks(c, m, enough(at));
}

lutniorad_answer compare_decompose_tiled(uint32_t m, uint32_t tile, window at, size_t n_out)
{
    call c = {&DECOMPOSE_TILED, m, tile, at, NO_CLASS, {{NULL, n_out}}};
    lutniorad_answer answer = compare_blocks(c, tile, enough_tiled(tile, at));
    if (tile == m)
        compare_with(&DECOMPOSE, answer);
    return answer;
}

/* ---- One question ---- */

const operation *const questions[] = {&OPEN,          &EXIST,         &REPORT,      &SELECT,
                                      &OPEN_TILED,    &SELECT_TILED,  &SPARSE_OPEN, &SPARSE_EXIST,
                                      &SPARSE_REPORT, &SPARSE_SELECT, &WHY_RECORD,  &WHY_BLOCK};

bool opens(const operation *o)
{
    return o == &OPEN || o == &OPEN_TILED || o == &SPARSE_OPEN;
}

static bool reports(const operation *o)
{
    return o == &REPORT || o == &SPARSE_REPORT || o == &OVERLAY_REPORT;
}

static bool selects(const operation *o)
{
    return o == &SELECT || o == &SELECT_TILED || o == &SPARSE_SELECT || o == &OVERLAY_SELECT;
}

static bool overlays(const operation *o)
{
    return o == &OVERLAY_EXIST || o == &OVERLAY_REPORT || o == &OVERLAY_SELECT || o == &OVERLAY_PART;
}

/* The baseline, and how long its slices are. */
static const map *baseline;
static size_t n_base_keys, n_base_classes;

void lay_over_slices(const map *base, size_t n_keys, size_t n_classes)
{
    baseline = base;
    n_base_keys = n_keys;
    n_base_classes = n_classes;
}

void lay_over(const map *base)
{
    lay_over_slices(base, base->q, base->q);
}

/* Where the border stands among the slices of the last question; the answer slice is next to it. */
static size_t place_of_border;

const uint16_t *border_left(void)
{
    return left(place_of_border);
}

const uint32_t *answer_left(void)
{
    return left(place_of_border + 1);
}

/* The same question without a tile, or NULL where it has none. */
static const operation *without_tile(const operation *o)
{
    return o == &OPEN_TILED ? &OPEN : o == &SELECT_TILED ? &SELECT : NULL;
}

/* The same question on a complete map, or NULL where it is that. */
static const operation *without_gaps(const operation *o)
{
    return o == &SPARSE_OPEN     ? &OPEN_TILED
           : o == &SPARSE_EXIST  ? &EXIST
           : o == &SPARSE_REPORT ? &REPORT
           : o == &SPARSE_SELECT ? &SELECT_TILED
                                 : NULL;
}

static bool takes_tile(const operation *o)
{
    return o == &SPARSE_OPEN || o == &SPARSE_SELECT || without_tile(o) != NULL;
}

/* The first n records of a map, which are all that it was asked of: a sparse one may be answered so. */
static const map *records_asked(const map *a, size_t n, map *part)
{
    if (n == a->q)
        return a;
    copy_records(part, a->m, n, a->keys, a->classes);
    return part;
}

/* What is promised of an answer to the last question. */
static void require_promises(question q, lutniorad_answer answer)
{
    static map part;
    const uint32_t tile = takes_tile(q.operation) ? q.tile : q.map->m;
    const map *base = overlays(q.operation) ? records_asked(baseline, n_base_keys, &part) : NULL;
    if (opens(q.operation))
        require_opened(q.map, q.operation == &SPARSE_OPEN, tile, q.at, answer, answer_left());
    if (reports(q.operation))
        require_reported(q.at, answer, answer_left());
    if (q.operation == &OVERLAY_PART)
        require_part_of_either(q.map, base, q.about, last_part());
    if (q.operation == &SPARSE_SELECT)
        require_sparse_selected(q.map, tile, q.at, q.about, answer_left(), answer.first);
    else if (q.operation == &OVERLAY_SELECT)
        require_overlay_selected(q.map, base, q.at, class_of(q.about), answer_left(), answer.first);
    else if (selects(q.operation))
        require_selected(q.map, tile, q.at, answer_left(), answer.first);
}

/* For the header's macros, which take no larger one. A larger one is refused, whatever room there is. */
static uint32_t tile_of_some_picture(uint32_t tile)
{
    return tile < LUTNIORAD_MOST_M ? tile : LUTNIORAD_MOST_M;
}

/* What the header calls enough besides enough_for, of opening and of any class but the background. */
static void require_more_room(question q, lutniorad_answer answer, size_t n_out)
{
    if (q.operation == &OPEN_TILED)
        require_room(answer, n_out, 3 * q.map->q);
    if (q.operation == &SPARSE_SELECT && class_of(q.about) != background_of(q.about))
        require_room(answer, n_out,
                     LUTNIORAD_SELECT_TILED_CELLS(tile_of_some_picture(q.tile), q.map->q, q.at.h, q.at.w));
}

/* Is the map refused neither for a gap nor for having no record? Then a sparse one is refused as a complete one is. */
static bool may_be_complete(uint32_t m, given keys, given classes)
{
    if (keys.length == 0 && classes.length == 0)
        return false;
    return reference_check(m, keys.content, keys.length, classes.content, classes.length).refusal != LUTNIORAD_GAP;
}

/* The last question once more, as it is asked without a tile, or on a complete map, where that must be the same. */
static void ask_without(question q, given keys, given classes, lutniorad_answer answer)
{
    const operation *tileless = without_tile(q.operation), *gapless = without_gaps(q.operation);
    if (tileless != NULL && q.tile == q.map->m)
        compare_with(tileless, answer);
    if (gapless != NULL && may_be_complete(q.map->m, keys, classes))
        compare_with(gapless, answer);
}

static call call_on_overlay(question q, given keys, given classes, given border, given out)
{
    const given base_keys = {baseline->keys, n_base_keys}, base_classes = {baseline->classes, n_base_classes};
    call c = {q.operation, q.map->m, baseline->m, q.at, q.about, {keys, classes, base_keys, base_classes, border, out}};
    return c;
}

static lutniorad_answer compare_question(question q, given keys, given classes, given border, given out)
{
    static map part;
    call c = {q.operation, q.map->m, q.tile, q.at, q.about, {keys, classes, border, out}};
    place_of_border = overlays(q.operation) ? 4 : 2;
    lutniorad_answer answer = compare(overlays(q.operation) ? call_on_overlay(q, keys, classes, border, out) : c);
    if (answer.refusal == 0)
        q.map = records_asked(q.map, keys.length, &part);
    require_room(answer, out.length, enough_for(q));
    require_more_room(q, answer, out.length);
    if (answer.refusal == 0)
        require_promises(q, answer);
    if (q.operation == &WHY_RECORD)
        require_said_of_record(q.map, q.at, q.about, last_reason());
    if (q.operation == &WHY_BLOCK)
        require_said_of_block(q.map, q.at, q.about, last_reason());
    ask_without(q, keys, classes, answer);
    return answer;
}

lutniorad_answer ask_slices(question q, size_t n_keys, size_t n_classes, size_t n_border, size_t n_out)
{
    given keys = {q.map->keys, n_keys}, classes = {q.map->classes, n_classes};
    given border = {NULL, n_border}, out = {NULL, n_out};
    return compare_question(q, keys, classes, border, out);
}

lutniorad_answer ask(question q, size_t n_border, size_t n_out)
{
    return ask_slices(q, q.map->q, q.map->q, n_border, n_out);
}

size_t enough(window at)
{
    return LUTNIORAD_DECOMPOSE_CELLS(at.h, at.w);
}

size_t enough_tiled(uint32_t tile, window at)
{
    return LUTNIORAD_DECOMPOSE_TILED_CELLS(tile_of_some_picture(tile), at.h, at.w);
}

/* A cell for each pixel, as the header has it; but no case has a larger window with more keys than this. */
static size_t enough_for_pixels(window at)
{
    const size_t pixels = (size_t)at.h * at.w, most = (size_t)1 << 16;
    return pixels < most ? pixels : most;
}

size_t enough_for(question q)
{
    const uint32_t tile = tile_of_some_picture(q.tile);
    return q.operation == &OPEN           ? LUTNIORAD_OPEN_CELLS(q.at.h, q.at.w)
           : reports(q.operation)         ? LUTNIORAD_CLASSES
           : q.operation == &SELECT       ? LUTNIORAD_SELECT_CELLS(q.map->q, q.at.h, q.at.w)
           : opens(q.operation)           ? LUTNIORAD_OPEN_TILED_CELLS(tile, q.at.h, q.at.w)
           : q.operation == &SELECT_TILED ? LUTNIORAD_SELECT_TILED_CELLS(tile, q.map->q, q.at.h, q.at.w)
           : selects(q.operation)         ? enough_for_pixels(q.at)
                                          : 0;
}

static lutniorad_answer answer_in_full(question q)
{
    return ask(q, q.at.w, enough_for(q));
}

static size_t cells_of(question q, lutniorad_answer answer)
{
    return answer.refusal != 0    ? 0
           : opens(q.operation)   ? 3 * (size_t)answer.first
           : reports(q.operation) ? CLASSES
           : selects(q.operation) ? answer.first
                                  : 0;
}

size_t ask_in_full(question q)
{
    return cells_of(q, answer_in_full(q));
}

void ask_over(question q, uint16_t old)
{
    enum { BEYOND = 3, MOST_CELLS = 2 * CLASSES };
    static uint16_t border_cells[MOST_CELLS];
    static uint32_t out_cells[MOST_CELLS];
    given keys = {q.map->keys, q.map->q}, classes = {q.map->classes, q.map->q};
    given border = {border_cells, q.at.w + (size_t)BEYOND}, out = {out_cells, enough_for(q) + BEYOND};
    require(border.length <= MOST_CELLS && out.length <= MOST_CELLS, "the window is not small");
    for (size_t i = 0; i < MOST_CELLS; i++)
        out_cells[i] = border_cells[i] = old;
    compare_question(q, keys, classes, border, out);
}

size_t too_short(size_t length)
{
    return length > 0 ? length - 1 : 0;
}

void ask_with_every_length(question q)
{
    lutniorad_answer answer = answer_in_full(q);
    size_t n = cells_of(q, answer);
    const size_t borders[] = {0, too_short(q.at.w), q.at.w, q.at.w + (size_t)3};
    const size_t lengths[] = {0, n + 5, n, too_short(n)};
    size_t n_lengths = enough_for(q) == 0 ? 1 : n == 0 ? 2 : COUNT(lengths);
    size_t n_pairs = answer.refusal != 0 ? 1 : COUNT(borders) * n_lengths;
    for (size_t i = 0; i < n_pairs; i++)
        ask(q, borders[i % COUNT(borders)], lengths[i / COUNT(borders)]);
}

size_t ask_too_short(question q)
{
    size_t n = ask(q, q.at.w, 0).place; /* refused by 8, if it needs a cell */
    ask(q, q.at.w, too_short(n));
    return n;
}

void ask_at_random(question q)
{
    static map damaged;
    size_t n = ask_in_full(q);
    size_t n_border = near_length(q.at.w);
    ask(q, n_border, near_length(n));
    copy_map(&damaged, q.map);
    damage_at_random(&damaged);
    q.map = &damaged;
    ask(q, q.at.w, n);
}

void make_stated_map(map *a, uint32_t m)
{
    make_reference_map(a);
    if (m == 0)
        make_picture(a, 0, 0); /* its classes as they were: 1 */
    a->m = m;
}

void require_border(window at, uint16_t stated)
{
    for (size_t i = 0; stated != 0 && i < at.w; i++)
        require(border_left()[i] == stated, "another border than the one written out");
}

/* ---- Some question ---- */

static uint32_t some_pixel_in(uint32_t m, uint32_t block)
{
    uint32_t pixel = block, place = 1;
    for (size_t side = side_of_block(m, block); side > 1; side /= 2, place *= 5)
        pixel += (1 + (uint32_t)below(4)) * place;
    return pixel;
}

/* The record that has some pixel of the block: the last one whose key is not beyond that of the pixel. */
static uint32_t some_record_in(const map *a, uint32_t block)
{
    uint32_t pixel = some_pixel_in(a->m, block), record = 0;
    while (record + 1 < a->q && a->keys[record + 1] <= pixel)
        record++;
    return record;
}

/*
 * A record, mostly one of the map, and often one in the window; or a key, mostly that of a maximal block, or of a
 * record there. The others are beside these, or any number, as always where the window is refused.
 */
static uint32_t something_to_explain(const operation *o, const map *a, window at)
{
    static uint32_t blocks[LUTNIORAD_DECOMPOSE_CELLS(LUTNIORAD_MOST_SIDE, LUTNIORAD_MOST_SIDE)];
    lutniorad_answer cut = reference_decompose(a->m, at.r0, at.c0, at.h, at.w, blocks, COUNT(blocks));
    size_t kind = below(8);
    if (kind == 0 || cut.refusal != 0 || a->q == 0)
        return (uint32_t)random_number();
    uint32_t block = blocks[below(cut.first)], record = some_record_in(a, block);
    if (o == &WHY_RECORD)
        return (uint32_t)(kind == 1 ? a->q + below(NEAR) : kind < 5 ? below(a->q) : record);
    return kind == 1 ? block + 1 : kind == 2 ? a->keys[record] : block;
}

uint32_t some_class_over(const map *a)
{
    const uint8_t background = some_class(a);
    return over(background, below(3) == 0 ? background : some_class(a));
}

/* The key of a record of either map, of a block around it, of a pixel in it or in the picture; or any number. */
static uint32_t some_key(const map *a)
{
    const map *from = below(2) == 0 || a->q == 0 ? baseline : a;
    const uint32_t key = from->q > 0 ? from->keys[below(from->q)] : 0, around = parent_of(from->m, key);
    const uint32_t keys[] = {
        key,
        around,
        parent_of(from->m, around),
        some_pixel_in(from->m, key),
        some_pixel_in(from->m, 0),
        key + 1,
        (uint32_t)random_number(),
    };
    return keys[below(COUNT(keys))];
}

question some_question(const operation *o, const map *a, window at)
{
    const bool explains = o == &WHY_RECORD || o == &WHY_BLOCK;
    uint32_t about = explains                  ? something_to_explain(o, a, at)
                     : o == &OVERLAY_PART      ? some_key(a)
                     : overlays(o)             ? some_class(below(2) == 0 ? a : baseline)
                     : without_gaps(o) != NULL ? some_class_over(a)
                                               : some_class(a);
    question q = {o, a, some_tile(a->m, at), at, about};
    return q;
}

void ask_over_old_contents(const map *a, window at, const operation *const *asked, size_t n)
{
    const int olds[] = {0, at.r0, at.r0 + 1, at.r0 + at.h - 1, at.r0 + at.h, at.r0 + at.h + 1, UINT16_MAX};
    for (size_t i = 0; i < n * COUNT(olds); i++)
        ask_over(some_question(asked[i % n], a, at), (uint16_t)olds[i / n]);
}

void ask_inside_and_outside(const operation *o, const map *a)
{
    const window windows[] = {whole_picture(a->m), {0, 0, 1, 1}, {0, 0, 0, 1}, {65535, 0, 1, 1}};
    for (size_t i = 0; i < COUNT(windows); i++) {
        question q = some_question(o, a, windows[i]);
        ask_in_full(q);
        ask(q, 0, 0);
    }
}

/* ---- Reasons together ---- */

const window chosen_windows[] = {
    {0, 1, 3, 3},         {0, 0, 4, 4},         {3, 3, 1, 1},         {0, 1, 3, 0},
    {0, 1, 0, 3},         {0, 0, 0, 0},         {4, 0, 0, 1},         {0, 1, 3, 4},
    {2, 1, 3, 3},         {4, 0, 1, 1},         {0, 4, 1, 1},         {0, 0, 5, 1},
    {0, 0, 1, 5},         {65535, 0, 1, 1},     {0, 65535, 1, 1},     {65535, 0, 2, 1},
    {0, 65535, 1, 2},     {0, 0, 65535, 1},     {0, 0, 1, 65535},     {1, 0, 65535, 1},
    {0, 1, 1, 65535},     {2, 0, 65535, 1},     {0, 2, 1, 65535},     {65533, 0, 3, 3},
    {0, 65533, 3, 3},     {32768, 0, 32768, 1}, {0, 32768, 1, 32768}, {65535, 65535, 65535, 65535},
    {65535, 65535, 0, 0}, {256, 256, 1, 1},     {4096, 0, 1, 1},      {0, 4095, 1, 1},
    {4095, 0, 1, 2},      {4095, 4095, 1, 1},
};

const uint32_t chosen_ms[] = {2, 0, 1, 3, 12, 13, 258, 65538, UINT32_MAX};

/* The third key of the reference map as it is, and such that the map is refused by 3, by 4 and by 5. */
static const uint32_t third_keys[] = {12, 1, 5, 13};

/* With each border and each answer slice. */
static void ask_with_every_slice(const map *a, window at, size_t n_keys, size_t n_classes, need of)
{
    static const size_t borders[] = {0, 2, 3};
    question q = {of.operation, a, of.tile, at, of.about};
    for (size_t i = 0; i < COUNT(borders) * of.n_outs; i++)
        ask_slices(q, n_keys, n_classes, borders[i % COUNT(borders)], of.outs[i / COUNT(borders)]);
}

void ask_with_reasons_together(window at, const need *needs, size_t n)
{
    static const size_t lengths[][2] = {{7, 7}, {6, 7}, {7, 6}, {8, 8}, {6, 6}, {0, 0}};
    static map damaged;
    make_reference_map(&damaged);
    damaged.keys[REFERENCE_Q] = 20; /* a record more, for the slices that are longer than the map */
    damaged.classes[REFERENCE_Q] = 2;
    for (size_t key = 0; key < COUNT(third_keys); key++)
        for (size_t k = 0; k < COUNT(chosen_ms) * COUNT(lengths) * n; k++) {
            const size_t *of_map = lengths[k / n / COUNT(chosen_ms)];
            damaged.keys[2] = third_keys[key];
            damaged.m = chosen_ms[k / n % COUNT(chosen_ms)];
            ask_with_every_slice(&damaged, at, of_map[0], of_map[1], needs[k % n]);
        }
}

/* ---- Questions together ---- */

/* These three on a complete map, on a sparse one or on an overlay, and the last with a tile or without. */
static lutniorad_answer ask_report(question q, uint32_t totals[CLASSES])
{
    lutniorad_answer answer = answer_in_full(q);
    if (answer.refusal == 0)
        memcpy(totals, answer_left(), CLASSES * sizeof *totals);
    return answer;
}

static void ask_exist(question q, const uint32_t totals[CLASSES])
{
    require_agreement(answer_in_full(q).first, class_of(q.about), totals);
}

static void ask_select(question q, const uint32_t totals[CLASSES])
{
    lutniorad_answer answer = answer_in_full(q);
    if (answer.refusal == 0)
        require_as_reported(q.map->m, answer_left(), answer.first, totals[class_of(q.about)]);
}

lutniorad_answer take_totals(const map *a, window at, uint32_t totals[CLASSES])
{
    question report = {&REPORT, a, NO_TILE, at, NO_CLASS};
    return ask_report(report, totals);
}

void try_exist(const map *a, window at, const uint8_t *asked, size_t n)
{
    uint32_t totals[CLASSES];
    if (take_totals(a, at, totals).refusal != 0)
        return;
    for (size_t i = 0; i < n; i++) {
        question exist = {&EXIST, a, NO_TILE, at, asked[i]};
        ask_exist(exist, totals);
    }
}

/* These three, on one map or on an overlay. */
typedef struct {
    const operation *report, *exist, *select;
} queries;

static void ask_queries(queries by, const map *a, window at, const uint8_t *asked, size_t n)
{
    uint32_t totals[CLASSES];
    question report = {by.report, a, NO_TILE, at, NO_CLASS};
    if (ask_report(report, totals).refusal != 0)
        return;
    for (size_t i = 0; i < n; i++) {
        question exist = {by.exist, a, NO_TILE, at, asked[i]}, select = {by.select, a, NO_TILE, at, asked[i]};
        ask_exist(exist, totals);
        ask_select(select, totals);
    }
}

void try_queries(const map *a, window at, const uint8_t *asked, size_t n)
{
    static const queries on_one_map = {&REPORT, &EXIST, &SELECT};
    ask_queries(on_one_map, a, at, asked, n);
}

void try_overlay(const map *today, window at, const uint8_t *asked, size_t n)
{
    static const queries on_overlay = {&OVERLAY_REPORT, &OVERLAY_EXIST, &OVERLAY_SELECT};
    ask_queries(on_overlay, today, at, asked, n);
}

void try_tile(const map *a, uint32_t tile, window at, const uint8_t *asked, size_t n)
{
    uint32_t totals[CLASSES];
    question open = {&OPEN_TILED, a, tile, at, NO_CLASS};
    compare_decompose_tiled(a->m, tile, at, enough_tiled(tile, at));
    ask_in_full(open);
    if (take_totals(a, at, totals).refusal != 0)
        return;
    for (size_t i = 0; i < n; i++) {
        question select = {&SELECT_TILED, a, tile, at, asked[i]};
        ask_select(select, totals);
    }
}

void try_sparse_tile(const map *a, uint32_t tile, window at, uint8_t background, const uint8_t *asked, size_t n,
                     const uint32_t totals[CLASSES])
{
    question open = {&SPARSE_OPEN, a, tile, at, NO_CLASS};
    ask_in_full(open);
    for (size_t i = 0; i < n; i++) {
        question select = {&SPARSE_SELECT, a, tile, at, over(background, asked[i])};
        ask_select(select, totals);
    }
}

lutniorad_answer try_sparse(const map *a, uint32_t tile, window at, uint8_t background, const uint8_t *asked, size_t n,
                            uint32_t totals[CLASSES])
{
    question report = {&SPARSE_REPORT, a, NO_TILE, at, over(background, NO_CLASS)};
    const lutniorad_answer answer = ask_report(report, totals);
    const size_t n_answered = answer.refusal == 0 ? n : 0;
    for (size_t i = 0; i < n_answered; i++) {
        question exist = {&SPARSE_EXIST, a, NO_TILE, at, over(background, asked[i])};
        ask_exist(exist, totals);
    }
    try_sparse_tile(a, tile, at, background, asked, n_answered, totals);
    return answer;
}

void try_window(const map *a, window at, uint8_t of_class)
{
    question open = {&OPEN, a, NO_TILE, at, NO_CLASS};
    compare_decompose(a->m, at, enough(at));
    ask_in_full(open);
    try_queries(a, at, &of_class, 1);
}
