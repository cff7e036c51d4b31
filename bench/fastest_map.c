/*
 * The calls on a map and a window for as few instructions as can be. The map's tree is gone down once, which checks it,
 * and cut at the window. The blocks come in the order of their keys, and are put in that of their rows. The border is
 * not needed, and filled at the end. For x86-64, with 900 KB of stack.
 */
#include "fastest.h"
#include "programs.h"

#include <emmintrin.h>
#include <string.h>

/* ---- Going down the tree ---- */

typedef enum { OPENINGS, EXISTENCE, TOTALS, SELECTION } wanted;

enum { MOST_ROWS = 4096, MOST_OPENINGS = 8 * MOST_ROWS };

/* Openings in the order of keys, three numbers each, with the row of each and how many each row has. */
typedef struct {
    uint32_t n, handed, numbers[3 * MOST_OPENINGS];
    uint16_t rows[MOST_OPENINGS], counts[MOST_ROWS];
} openings;

/* The classes of the records; and the class that is asked for, 16 times. */
typedef struct {
    bool has[256]; /* set for any, but read, and so cleared, for that class and 255 alone */
    __m128i asked;
} shown;

/* Work on a map, from a record on, with the four edges of the window; and what is wanted, and known of it. */
typedef struct {
    const uint32_t *keys;
    const uint8_t *classes;
    size_t q;
    record at;
    uint32_t m, north, west, south, east;
    wanted what;
    uint8_t class;
    shown *shown;
    uint32_t *totals;
    openings *blocks;
} work;

static inline void put_block(work *on, uint32_t row, uint32_t key, record first, uint32_t count)
{
    openings *to = on->blocks;
    to->numbers[3 * to->n] = key;
    to->numbers[3 * to->n + 1] = (uint32_t)(first.class - on->classes);
    to->numbers[3 * to->n + 2] = count;
    to->rows[to->n++] = (uint16_t)(row - on->north);
    to->counts[row - on->north]++;
    to->handed += count;
}

/* The classes of 16 records. */
static inline __m128i sixteen(const uint8_t *classes)
{
    return _mm_loadu_si128((const __m128i *)classes);
}

/* Of 4 to 15 records, some of them more than once. */
static inline __m128i fewer(const uint8_t *classes, size_t n)
{
    uint64_t eight, last_eight;
    uint32_t four, last_four;
    if (n >= 8) {
        memcpy(&eight, classes, sizeof eight);
        memcpy(&last_eight, classes + n - 8, sizeof last_eight);
        return _mm_set_epi64x((long long)last_eight, (long long)eight);
    }
    memcpy(&four, classes, sizeof four);
    memcpy(&last_four, classes + n - 4, sizeof last_four);
    return _mm_set_epi32((int)last_four, (int)four, (int)last_four, (int)four);
}

/*
 * Of n records, 4 or more: has one the class, and was one not seen? The latter is 255, the greatest. 16 of them are
 * looked at together, some of the last twice.
 */
static void look(shown *to, uint8_t class, const uint8_t *classes, size_t n)
{
    __m128i asked = to->asked, most = n < 16 ? fewer(classes, n) : sixteen(classes + n - 16);
    __m128i same = _mm_cmpeq_epi8(most, asked), unseen;
#pragma GCC unroll 4
    for (size_t i = 16; i < n; i += 16) {
        __m128i these = sixteen(classes + i - 16);
        most = _mm_max_epu8(most, these);
        same = _mm_or_si128(same, _mm_cmpeq_epi8(these, asked));
    }
    unseen = _mm_cmpeq_epi8(most, _mm_set1_epi8(-1));
    if (_mm_movemask_epi8(_mm_or_si128(same, unseen)) != 0) {
        to->has[class] |= _mm_movemask_epi8(same) != 0;
        to->has[NOT_SEEN] |= _mm_movemask_epi8(unseen) != 0;
    }
}

/* All maximal blocks in a part of the window, by stretches of its rows and columns: those of a row from the west on. */
static void put_all(work *on, uint32_t north, uint32_t west, uint32_t south, uint32_t east)
{
    stretch rows[MOST_STRETCHES], cols[MOST_STRETCHES];
    uint32_t n_rows = cut(north, south - north, rows), n_cols = cut(west, east - west, cols);
    for (uint32_t i = 0; i < n_rows; i++)
        for (uint32_t j = 0; j < n_cols; j++) {
            uint32_t a = rows[i].exponent, b = cols[j].exponent, e = least(a, b);
            uint32_t key = ones[on->m] + 2 * rows[i].first + cols[j].first - ones[e];
            uint32_t down = a > b ? 1u << e : 0, by = a > b ? 2 * fives[e] : fives[e];
            for (uint32_t k = 0; k < 1u << (a + b - 2 * e); k++)
                put_block(on, rows[i].start + k * down, key + by * spread(k), on->at, 1);
        }
}

/* A record that lies partly in the window. */
static void cut_record(work *on, uint32_t row, uint32_t col, uint32_t e)
{
    uint32_t north = row < on->north ? on->north : row, south = least(row + (1u << e), on->south);
    uint32_t west = col < on->west ? on->west : col, east = least(col + (1u << e), on->east);
    if (on->what == OPENINGS) {
        window at = {on->north, on->west, on->south - on->north, on->east - on->west};
        put_block(on, north, block_key(on->m, exponent_of(at, on->m, north, west), north, west), on->at, 1);
    } else if (on->what == TOTALS)
        add(on->totals, on->at, (south - north) * (east - west));
    else if (*on->at.class == on->class)
        put_all(on, north, west, south, east);
}

/* A record that is a maximal block. */
static inline void take_record(work *on, uint32_t row, uint32_t key, uint32_t e)
{
    if (on->what == TOTALS)
        add(on->totals, on->at, pixels(e));
    else if (on->what == OPENINGS || *on->at.class == on->class)
        put_block(on, row, key, on->at, 1);
}

/* Those in one; false where they are others. */
static bool take_records(work *on, uint32_t row, uint32_t key, uint32_t e)
{
    record first = on->at;
    on->at = on->what == TOTALS ? gather_node(first, key, e, on->totals) : check_node(first, key, e);
    if (!on->at.key)
        return false;
    if (on->what == EXISTENCE)
        look(on->shown, on->class, first.class, (size_t)(on->at.key - first.key));
    else if (on->what != TOTALS)
        put_block(on, row, key, first, (uint32_t)(on->at.key - first.key));
    return true;
}

/* How much of 2^e rows or columns lies in those of the window. */
typedef enum { NOTHING, SOME, ALL } part;

static inline part part_of(uint32_t from, uint32_t to, uint32_t start, uint32_t e)
{
    uint32_t end = start + (1u << e);
    return end <= from || to <= start ? NOTHING : from <= start && end <= to ? ALL : SOME;
}

static bool go_down(work *on, uint32_t row, uint32_t col, uint32_t key, uint32_t e);

/* One node; false where the records are others. */
static inline bool go_on(work *on, uint32_t row, part rows, uint32_t col, part cols, uint32_t key, uint32_t e)
{
    bool is_record = *on->at.key == key;
    if (!is_record && e == 0)
        return false;
    if (rows == NOTHING || cols == NOTHING) {
        on->at = is_record ? behind(on->at, 1) : check_node(on->at, key, e);
        return on->at.key;
    }
    if (!is_record)
        return rows == ALL && cols == ALL ? take_records(on, row, key, e) : go_down(on, row, col, key, e);
    if (on->what == EXISTENCE)
        on->shown->has[*on->at.class] = true;
    else if (rows == ALL && cols == ALL)
        take_record(on, row, key, e);
    else
        cut_record(on, row, col, e);
    on->at = behind(on->at, 1);
    return true;
}

/* The four quadrants of a node that is cut. */
static bool go_down(work *on, uint32_t row, uint32_t col, uint32_t key, uint32_t e)
{
    uint32_t half = 1u << --e, step = fives[e], low = row + half, right = col + half;
    part north = part_of(on->north, on->south, row, e), south = part_of(on->north, on->south, low, e);
    part west = part_of(on->west, on->east, col, e), east = part_of(on->west, on->east, right, e);
    return go_on(on, row, north, col, west, key + step, e) && go_on(on, row, north, right, east, key + 2 * step, e) &&
           go_on(on, low, south, col, west, key + 3 * step, e) && go_on(on, low, south, right, east, key + 4 * step, e);
}

/* The whole map; false where it is not sound. */
static bool go(work *on)
{
    part rows = part_of(on->north, on->south, 0, on->m), cols = part_of(on->west, on->east, 0, on->m);
    return (on->keys[0] == 0 || is_last(on->m, on->keys[on->q - 1])) && go_on(on, 0, rows, 0, cols, 0, on->m) &&
           on->at.key == on->keys + on->q;
}

/* ---- The calls ---- */

/* Refusals 1, 2, 6 and 7; and 3 to 5 where one of the last two would be given, for else the map is still unchecked. */
static lutniorad_answer ready(uint32_t m, const uint32_t *keys, size_t n_keys, const uint8_t *classes,
                              size_t n_classes, window at, size_t cells)
{
    lutniorad_answer verdict = sized(m, n_keys, n_classes);
    if (verdict.refusal != 0 || (!outside(m, at) && at.w <= cells))
        return verdict;
    if (!is_sound(m, keys, classes, n_keys))
        return sound_records(m, keys, n_keys, true);
    return outside(m, at) ? refused(6, 0) : refused(7, at.w);
}

static work begin(uint32_t m, const uint32_t *keys, size_t q, const uint8_t *classes, window at, wanted what)
{
    work on = {keys, classes, q,     {keys, classes}, m,    at.r0, at.c0, at.r0 + at.h, at.c0 + at.w,
               what, 0,       NULL,  NULL,            NULL};
    return on;
}

static void begin_blocks(work *on, openings *blocks)
{
    blocks->n = blocks->handed = 0;
    memset(blocks->counts, 0, sizeof blocks->counts);
    on->blocks = blocks;
}

/* Of each row, how many blocks stand in the rows before it: four rows at a time where there are none. */
static void add_up(uint16_t *counts, uint32_t h)
{
    uint32_t sum = 0;
    for (uint32_t i = 0; i < h; i += 4) {
        uint64_t four;
        memcpy(&four, counts + i, sizeof four);
        for (uint32_t k = i; four != 0 && k < i + 4; k++) {
            uint32_t count = counts[k];
            counts[k] = (uint16_t)sum;
            sum += count;
        }
    }
}

/* In the order of rows. Those of one row come in that of their columns. */
static void sort(openings *blocks, uint32_t h, uint32_t *to)
{
    add_up(blocks->counts, h);
    for (uint32_t i = 0; i < blocks->n; i++)
        memcpy(to + 3 * (size_t)blocks->counts[blocks->rows[i]]++, blocks->numbers + 3 * (size_t)i, 12);
}

lutniorad_answer fastest_open(uint32_t m, const uint32_t *keys, size_t n_keys, const uint8_t *classes,
                              size_t n_classes, uint16_t r0, uint16_t c0, uint16_t h, uint16_t w, uint16_t *border,
                              size_t n_border, uint32_t *out, size_t n_out)
{
    window at = {r0, c0, h, w};
    lutniorad_answer verdict = ready(m, keys, n_keys, classes, n_classes, at, n_border);
    work on = begin(m, keys, n_keys, classes, at, OPENINGS);
    openings blocks;
    if (verdict.refusal != 0)
        return verdict;
    begin_blocks(&on, &blocks);
    if (!go(&on))
        return sound_records(m, keys, n_keys, true);
    fill(border, 0, w, on.south);
    if (n_out < 3 * (size_t)blocks.n)
        return refused(8, 3 * blocks.n);
    sort(&blocks, h, out);
    return answered(blocks.n, blocks.handed);
}

lutniorad_answer fastest_exist(uint32_t m, const uint32_t *keys, size_t n_keys, const uint8_t *classes,
                               size_t n_classes, uint16_t r0, uint16_t c0, uint16_t h, uint16_t w, uint8_t class,
                               uint16_t *border, size_t n_border)
{
    window at = {r0, c0, h, w};
    lutniorad_answer verdict = ready(m, keys, n_keys, classes, n_classes, at, n_border);
    work on = begin(m, keys, n_keys, classes, at, EXISTENCE);
    shown seen;
    if (verdict.refusal != 0)
        return verdict;
    on.class = class;
    on.shown = &seen;
    seen.asked = _mm_set1_epi8((char)class);
    seen.has[class] = seen.has[NOT_SEEN] = false;
    if (!go(&on))
        return sound_records(m, keys, n_keys, true);
    fill(border, 0, w, on.south);
    return answered(seen.has[class] ? LUTNIORAD_YES : seen.has[NOT_SEEN] ? LUTNIORAD_CANNOT_TELL : LUTNIORAD_NO, 0);
}

lutniorad_answer fastest_report(uint32_t m, const uint32_t *keys, size_t n_keys, const uint8_t *classes,
                                size_t n_classes, uint16_t r0, uint16_t c0, uint16_t h, uint16_t w, uint16_t *border,
                                size_t n_border, uint32_t *out, size_t n_out)
{
    window at = {r0, c0, h, w};
    lutniorad_answer verdict = ready(m, keys, n_keys, classes, n_classes, at, n_border);
    work on = begin(m, keys, n_keys, classes, at, TOTALS);
    uint32_t totals[256] = {0};
    if (verdict.refusal != 0)
        return verdict;
    on.totals = totals;
    if (!go(&on))
        return sound_records(m, keys, n_keys, true);
    fill(border, 0, w, on.south);
    if (n_out < 256)
        return refused(8, 256);
    for (int i = 0; i < 256; i += 4)
        *(four_numbers *)(out + i) = *(const four_numbers *)(totals + i);
    return answered((uint32_t)h * w, 0);
}

/* A byte 0x80 for each of eight records that has the class. */
static inline uint64_t with_class(const uint8_t *classes, uint8_t class)
{
    const uint64_t low = 0x7f7f7f7f7f7f7f7f;
    uint64_t eight;
    memcpy(&eight, classes, sizeof eight);
    eight ^= class * 0x0101010101010101u;
    return ~(((eight & low) + low) | eight | low);
}

/* Where there is room, writes the keys of those of some records that have the class. Returns how many there are. */
static inline uint32_t list_records(const work *on, uint32_t first, uint32_t count, uint32_t *out)
{
    const uint8_t *classes = on->classes + first;
    const uint32_t *keys = on->keys + first;
    uint32_t i = 0, n = 0;
    for (; i + 8 <= count; i += 8)
        for (uint64_t these = with_class(classes + i, on->class); these != 0; these &= these - 1, n++)
            if (out)
                out[n] = keys[i + (uint32_t)__builtin_ctzll(these) / 8];
    for (; i < count; i++)
        if (classes[i] == on->class) {
            if (out)
                out[n] = keys[i];
            n++;
        }
    return n;
}

/* The same of all keys of the class, from sorted openings. */
ALWAYS uint32_t list_keys(const work *on, const uint32_t *numbers, uint32_t *out)
{
    uint32_t n = 0;
    for (const uint32_t *one = numbers; one < numbers + 3 * on->blocks->n; one += 3)
        if (one[2] > 1)
            n += list_records(on, one[1], one[2], out ? out + n : NULL);
        else {
            if (out)
                out[n] = one[0];
            n++;
        }
    return n;
}

lutniorad_answer fastest_select(uint32_t m, const uint32_t *keys, size_t n_keys, const uint8_t *classes,
                                size_t n_classes, uint16_t r0, uint16_t c0, uint16_t h, uint16_t w, uint8_t class,
                                uint16_t *border, size_t n_border, uint32_t *out, size_t n_out)
{
    window at = {r0, c0, h, w};
    lutniorad_answer verdict = ready(m, keys, n_keys, classes, n_classes, at, n_border);
    work on = begin(m, keys, n_keys, classes, at, SELECTION);
    openings blocks;
    uint32_t sorted[3 * MOST_OPENINGS];
    if (verdict.refusal != 0)
        return verdict;
    on.class = class;
    begin_blocks(&on, &blocks);
    if (!go(&on))
        return sound_records(m, keys, n_keys, true);
    fill(border, 0, w, on.south);
    sort(&blocks, h, sorted);
    if (n_out < 4 * ((size_t)w + h) + n_keys) {
        uint32_t needed = list_keys(&on, sorted, NULL);
        if (n_out < needed)
            return refused(8, needed);
    }
    return answered(list_keys(&on, sorted, out), 0);
}
