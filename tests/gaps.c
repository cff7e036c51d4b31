#include "gaps.h"

#include "harness.h"

#include <string.h>

/* ---- Sparse maps ---- */

/* Which records of the map are kept. */
static bool is_kept[MOST_RECORDS];

static void keep_these(map *a)
{
    size_t kept = 0;
    for (size_t i = 0; i < a->q; i++)
        if (is_kept[i]) {
            a->keys[kept] = a->keys[i];
            a->classes[kept++] = a->classes[i];
        }
    a->q = kept;
}

void thin_out(map *a, size_t keep, size_t of)
{
    for (size_t i = 0; i < a->q; i++)
        is_kept[i] = below(of) < keep;
    keep_these(a);
}

void leave_out(map *a, uint8_t background)
{
    for (size_t i = 0; i < a->q; i++)
        is_kept[i] = a->classes[i] != background;
    keep_these(a);
}

void keep_inside(map *a, window at)
{
    for (size_t i = 0; i < a->q; i++)
        is_kept[i] = reference_lies_in(a->m, a->keys[i], at);
    keep_these(a);
}

/* One record alone, mostly at the beginning or the end. */
static void keep_one(map *a)
{
    const size_t kept[] = {0, a->q - 1, below(a->q)}, i = kept[below(COUNT(kept))];
    a->keys[0] = a->keys[i];
    a->classes[0] = a->classes[i];
    a->q = 1;
}

void make_sparse(map *a, size_t density)
{
    static const size_t kept_of_64[DENSITIES] = {[NO_RECORDS] = 0, [NEARLY_EMPTY] = 2, [HALF] = 32, [NEARLY_FULL] = 62};
    if (density == ONE_RECORD)
        keep_one(a);
    else if (density != COMPLETE)
        thin_out(a, kept_of_64[density], 64);
}

/*
 * All sparse maps of m = 0 and m = 1, by number, and those of m = 2 but for the one that is the whole picture: of each
 * block of side 2 there is no record, a choice of its pixels, or the block.
 */
enum { OF_PIXEL = 2, OF_BLOCK = 17, OF_PICTURE = 17 * 17 * 17 * 17 };

static void append_choice(map *a, uint32_t key, size_t choice)
{
    if (choice == OF_BLOCK - 1)
        a->keys[a->q++] = key;
    for (uint32_t digit = 1; choice < OF_BLOCK - 1 && digit <= 4; digit++)
        if ((choice >> (digit - 1)) % 2 == 1)
            a->keys[a->q++] = key + digit;
}

static void make_choice(map *a, uint32_t m, size_t number)
{
    a->m = m;
    a->q = 0;
    if (m == 0 && number == 1)
        a->keys[a->q++] = 0;
    if (m == 1)
        append_choice(a, 0, number);
    for (uint32_t digit = 1; m == 2 && digit <= 4; digit++, number /= OF_BLOCK)
        append_choice(a, 5 * digit, number % OF_BLOCK);
}

/* All of m = 0 and m = 1, and so many of m = 2: first some with few records, then others all over the numbers. */
static size_t n_choices(size_t of_2)
{
    return OF_PIXEL + OF_BLOCK + of_2;
}

static void make_nth_choice(map *a, size_t n)
{
    enum { STEP = 30011, FEW_RECORDS = 3 * OF_BLOCK }; /* the step and the number of choices share no factor */
    if (n < OF_PIXEL)
        make_choice(a, 0, n);
    else if (n < OF_PIXEL + OF_BLOCK)
        make_choice(a, 1, n - OF_PIXEL);
    else {
        n -= OF_PIXEL + OF_BLOCK;
        make_choice(a, 2, n < FEW_RECORDS ? n : n * STEP % OF_PICTURE);
    }
}

bool for_small_sparse_maps(map *a, size_t of_2, void (*run)(void))
{
    size_t n_run = 0;
    for (size_t n = 0; n < n_choices(of_2); n++)
        if (begin_case()) {
            make_nth_choice(a, n);
            paint(a, FEW);
            run();
            n_run++;
        }
    return n_run == n_choices(of_2);
}

size_t n_paintings(size_t q, size_t n_classes)
{
    return q == 0 ? 1 : n_classes * n_paintings(q - 1, n_classes);
}

void paint_by_number(map *a, const uint8_t *classes, size_t n_classes, size_t number)
{
    for (size_t i = 0; i < a->q; i++, number /= n_classes)
        a->classes[i] = classes[number % n_classes];
}

bool for_painted_sparse_maps(map *a, const uint8_t *classes, size_t n_classes, void (*run)(void))
{
    bool all_run = true;
    for (size_t n = 0; n < n_choices(0); n++) {
        make_nth_choice(a, n);
        for (size_t number = 0; number < n_paintings(a->q, n_classes); number++)
            if (begin_case()) {
                paint_by_number(a, classes, n_classes, number);
                run();
            } else
                all_run = false;
    }
    return all_run;
}

/* ---- The gaps filled ---- */

/* A map on its way: which of its records comes next, and where it goes. */
typedef struct {
    const map *from;
    size_t next;
    uint8_t background;
    map *to;
} filling;

/* Appends what a block has: its records, and for its gaps the largest blocks. False where there are too many. */
static bool fill_block(filling *f, uint32_t exponent, uint32_t key)
{
    const bool is_next = f->next < f->from->q && f->from->keys[f->next] == key;
    const bool is_gap = f->next == f->from->q || f->from->keys[f->next] >= key + power_of_5(exponent);
    if (is_next || is_gap) {
        if (f->to->q == MOST_RECORDS)
            return false;
        f->to->keys[f->to->q] = key;
        f->to->classes[f->to->q++] = is_next ? f->from->classes[f->next++] : f->background;
        return true;
    }
    for (uint32_t digit = 1; digit <= 4; digit++)
        if (!fill_block(f, exponent - 1, key + digit * power_of_5(exponent - 1)))
            return false;
    return true;
}

bool fill_gaps(const map *a, uint8_t background, map *filled)
{
    filling f = {a, 0, background, filled};
    filled->m = a->m;
    filled->q = 0;
    return fill_block(&f, a->m, 0);
}

/* ---- What was met ---- */

enum {
    ONE_PIXEL,               /* a map whose only record is a pixel */
    EMPTY,                   /* an empty opening */
    EMPTY_BEHIND,            /* one behind a record that was handed out */
    ALL_EMPTY,               /* nothing but such openings, though the map has records */
    SINGLE,                  /* an opening at a block with a single record inside it, and a gap */
    CUT,                     /* more maximal blocks than there are without a tile */
    PARTS,                   /* several blocks in gaps, each inside a maximal block */
    LARGE_PARTS,             /* and larger ones than a pixel among them */
    NOT_JOINED,              /* four that would be one block, if a record were not among them */
    YES_BY_GAP,              /* a class that no record has, but gaps do */
    CANNOT_TELL_BY_GAP,      /* where only what lies in gaps was not seen */
    NO_THOUGH_GAP_ELSEWHERE, /* a gap outside the window has the class */
    MET_ON_PIXELS,           /* up to here, what can be met where the map is one pixel */
    SKIPPED = MET_ON_PIXELS, /* a block in a record handed out */
    AROUND,                  /* an opening at a block inside its record */
    SEVERAL,                 /* one at a block with several records inside it, and a gap */
    FULL,                    /* one at a block that its records fill */
    MET
};
static size_t met[MET];

void forget_met(void)
{
    memset(met, 0, sizeof met);
}

static void require_first_met(size_t n, bool all_cases)
{
    for (size_t i = 0; all_cases && i < n; i++)
        require(met[i] > 0, "something that a window on a sparse map can have was not met");
}

void require_met(bool all_cases)
{
    require_first_met(MET, all_cases);
}

void require_met_on_pixels(bool all_cases)
{
    require_first_met(MET_ON_PIXELS, all_cases);
}

static size_t pixels_of(uint32_t m, uint32_t key)
{
    return side_of_block(m, key) * side_of_block(m, key);
}

/* What the independent program lists, of windows that are not large: room for all of it. */
static uint16_t border_cells[LUTNIORAD_MOST_SIDE];
static uint32_t listed[3 << 16];

static void count_opening(const map *a, const uint32_t *opening)
{
    const size_t of_block = pixels_of(a->m, opening[0]);
    size_t of_records = 0;
    for (size_t i = 0; i < opening[2]; i++)
        of_records += pixels_of(a->m, a->keys[opening[1] + i]);
    met[EMPTY] += opening[2] == 0;
    met[AROUND] += of_records > of_block;
    met[SINGLE] += opening[2] == 1 && of_records < of_block;
    met[SEVERAL] += opening[2] > 1 && of_records < of_block;
    met[FULL] += opening[2] > 1 && of_records == of_block;
}

static void count_openings(const map *a, uint32_t tile, window at)
{
    const lutniorad_answer larger = reference_decompose(a->m, at.r0, at.c0, at.h, at.w, listed, COUNT(listed));
    const lutniorad_answer blocks =
        reference_decompose_tiled(a->m, tile, at.r0, at.c0, at.h, at.w, listed, COUNT(listed));
    const lutniorad_answer opened =
        reference_sparse_open(a->m, tile, a->keys, a->q, a->classes, a->q, at.r0, at.c0, at.h, at.w, border_cells,
                              COUNT(border_cells), listed, COUNT(listed));
    size_t handed_out = 0;
    for (size_t i = 0; i < opened.first; i++) {
        count_opening(a, listed + 3 * i);
        met[EMPTY_BEHIND] += listed[3 * i + 2] == 0 && handed_out > 0;
        handed_out += listed[3 * i + 2];
    }
    met[CUT] += larger.first < blocks.first;
    met[SKIPPED] += opened.first < blocks.first;
    met[ALL_EMPTY] += opened.second == 0 && a->q > 0;
}

/* Of four keys in the list: are they the quadrants of a block that a tile and the window have room for? */
static bool might_be_one(uint32_t m, const uint32_t *keys, uint32_t tile, window at)
{
    return are_quadrants(m, keys) && 2 * side_of_block(m, keys[0]) <= side_of(tile)
           && reference_lies_in(m, parent_of(m, keys[0]), at);
}

/* The keys of a map rise. */
static bool is_record(const map *a, uint32_t key)
{
    size_t from = 0, to = a->q;
    while (from < to) {
        size_t middle = (from + to) / 2;
        if (a->keys[middle] < key)
            from = middle + 1;
        else
            to = middle;
    }
    return from < a->q && a->keys[from] == key;
}

/* By the class of the background. */
static void count_selected(const map *a, uint32_t tile, window at, uint8_t background)
{
    const lutniorad_answer answer =
        reference_sparse_select(a->m, tile, background, a->keys, a->q, a->classes, a->q, at.r0, at.c0, at.h, at.w,
                                background, border_cells, COUNT(border_cells), listed, COUNT(listed));
    size_t in_gaps = 0, large_in_gaps = 0;
    for (size_t i = 0; i < answer.first; i++) {
        bool is_part = !reference_maximal(a->m, tile, listed[i], at) && !is_record(a, listed[i]);
        in_gaps += is_part;
        large_in_gaps += is_part && side_of_block(a->m, listed[i]) > 1;
        met[NOT_JOINED] += i + 4 <= answer.first && might_be_one(a->m, listed + i, tile, at);
    }
    met[PARTS] += in_gaps > 1;
    met[LARGE_PARTS] += large_in_gaps > 0;
}

static bool is_class_of_record(const map *a, uint8_t of_class)
{
    for (size_t i = 0; i < a->q; i++)
        if (a->classes[i] == of_class)
            return true;
    return false;
}

void count_window(const map *a, uint32_t tile, window at, uint8_t background)
{
    met[ONE_PIXEL] += a->q == 1 && pixels_of(a->m, a->keys[0]) == 1;
    count_openings(a, tile, at);
    count_selected(a, tile, at, background);
}

void count_existence(const map *a, bool has_gaps, uint8_t background, const uint32_t totals[CLASSES])
{
    const bool by_gap = !is_class_of_record(a, background), in_window = totals[background] > 0;
    met[YES_BY_GAP] += by_gap && in_window;
    met[CANNOT_TELL_BY_GAP] += by_gap && in_window && background == NOT_SEEN;
    met[NO_THOUGH_GAP_ELSEWHERE] += by_gap && !in_window && has_gaps;
}
