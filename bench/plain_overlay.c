/* The library's algorithm in plain C: today's map, which may have gaps, over a complete baseline. */
#include "parts.h"
#include "programs.h"

#include <string.h>

/* One of the two maps, as it is handed over. */
typedef struct {
    uint32_t m;
    const uint32_t *keys;
    size_t n_keys;
    const uint8_t *classes;
    size_t n_classes;
} layer;

typedef struct {
    layer today, under;
} overlay;

/* ---- Places ---- */

/* Four bits, spread over the powers of 4. */
static const uint8_t fours[16] = {0, 1, 4, 5, 16, 17, 20, 21, 64, 65, 68, 69, 80, 81, 84, 85};

static inline uint32_t bits_apart(uint32_t x)
{
    return fours[x % 16] + 256u * fours[x / 16 % 16] + 65536u * fours[x / 256];
}

/* Of a pixel, in the order of the keys. */
static inline uint32_t place_of(uint32_t row, uint32_t col)
{
    return 2 * bits_apart(row) + bits_apart(col);
}

/* Two digits of a block's key: where they say that it starts, among 16 places. A zero counts as 1 does. */
static const uint8_t starts[25] = {
    0,  0,  1,  2,  3,  /* 0 and another */
    0,  0,  1,  2,  3,  /* 1 and another */
    4,  4,  5,  6,  7,  /* 2 and another */
    8,  8,  9,  10, 11, /* 3 and another */
    12, 12, 13, 14, 15, /* 4 and another */
};

/* Where the block of a key starts, two digits at a time, and always twelve. */
static inline uint32_t start_of(uint32_t key)
{
    uint32_t start = 0;
    for (uint32_t k = 0; k < 12; k += 2, key /= 25)
        start += (uint32_t)starts[key % 25] << 2 * k;
    return start;
}

static inline uint32_t zeros_of(uint32_t m, uint32_t key)
{
    uint32_t zeros = 0;
    for (; zeros < m && key % 5 == 0; key /= 5)
        zeros++;
    return zeros;
}

/* ---- Cursors ---- */

/* A record by its number and its places. Behind the last one it starts at the end of the picture. */
typedef struct {
    size_t next;
    uint32_t start, end;
} cursor;

static cursor read_record(uint32_t m, const uint32_t *keys, size_t q, size_t n)
{
    cursor behind = {n, pixels(m), pixels(m) + 1}, record = {n, 0, 0};
    if (n == q)
        return behind;
    record.start = start_of(keys[n]);
    record.end = record.start + pixels(zeros_of(m, keys[n]));
    return record;
}

/* The first record that ends behind place a, by the key of a block that starts there. */
static cursor seek(uint32_t m, const uint32_t *keys, size_t q, uint32_t key, uint32_t a)
{
    size_t next = keys_below(keys, q, key, 0);
    if (next > 0) {
        cursor before = read_record(m, keys, q, next - 1);
        if (a < before.end)
            return before;
    }
    return read_record(m, keys, q, next);
}

/* The same where that of another place is known: it may be the one. */
static inline cursor seek_near(layer in, uint32_t key, uint32_t a, uint32_t known, cursor of)
{
    if (a < of.end && (known <= a || of.start <= a))
        return of;
    return seek(in.m, in.keys, in.n_keys, key, a);
}

/* The same for a later place, not behind the record's end. */
static inline cursor keep_up(layer in, cursor of, uint32_t a)
{
    return a < of.end ? of : read_record(in.m, in.keys, in.n_keys, of.next + 1);
}

/* The same in a map without gaps, where the next record starts where this one ends. */
static inline cursor keep_up_whole(layer in, cursor of, uint32_t a)
{
    cursor next = {of.next + 1, of.end, of.end + 1};
    if (a < of.end)
        return of;
    if (next.next < in.n_keys)
        next.end = next.start + pixels(zeros_of(in.m, in.keys[next.next]));
    return next;
}

/* ---- Pieces ---- */

/* A place, and in each map the first record that ends behind it. */
typedef struct {
    uint32_t place;
    cursor today, under;
} stand;

/* Places of one class, up to the one before `end`. */
typedef struct {
    uint8_t class;
    uint32_t end;
} piece;

static inline stand first_stand(overlay on)
{
    stand first = {0, read_record(on.today.m, on.today.keys, on.today.n_keys, 0),
                   read_record(on.under.m, on.under.keys, on.under.n_keys, 0)};
    return first;
}

/* Inlined as the others that take a stand, or else gcc hands it over in memory. */
__attribute__((always_inline)) static inline stand stand_at(overlay on, stand known, uint32_t key, uint32_t a)
{
    stand next = {a, seek_near(on.today, key, a, known.place, known.today),
                  seek_near(on.under, key, a, known.place, known.under)};
    return next;
}

__attribute__((always_inline)) static inline stand go_on(overlay on, stand from, uint32_t a)
{
    stand next = {a, keep_up(on.today, from.today, a), keep_up_whole(on.under, from.under, a)};
    return next;
}

/* Not beyond `stop`. Where no record of today has the place, it is of the baseline, up to today's next. */
__attribute__((always_inline)) static inline piece next_piece(overlay on, stand at, uint32_t stop)
{
    uint32_t near = least(at.under.end, stop);
    piece of_today = {0, least(at.today.end, near)}, beneath = {0, least(at.today.start, near)};
    if (at.place < at.today.start) {
        beneath.class = on.under.classes[at.under.next];
        return beneath;
    }
    of_today.class = on.today.classes[at.today.next];
    return of_today;
}

/* How far the walk over a window's maximal blocks has come: a row and a column, and both maps at the last block. */
typedef struct {
    uint32_t row, col;
    stand at;
} walked;

static inline walked begin_walk(overlay on, window in)
{
    walked first = {in.r0, in.c0, first_stand(on)};
    return first;
}

/* To the next block; false where there is none. Its places end before `end`. */
__attribute__((always_inline)) static inline bool next_ahead(overlay on, window in, walked *to, uint32_t *end)
{
    block b;
    uint32_t start;
    if (!next_block(in, on.today.m, to->row, to->col, &b))
        return false;
    start = place_of(b.row, b.col);
    *end = start + pixels(b.exponent);
    to->row = b.row;
    to->col = b.after;
    to->at = stand_at(on, to->at, block_key(on.today.m, b.exponent, b.row, b.col), start);
    return true;
}

/* ---- Exist and report ---- */

/* Until a place has the class: yes. Otherwise it cannot tell where one was not seen. */
static uint32_t find(overlay on, window in, uint8_t class)
{
    walked to = begin_walk(on, in);
    uint32_t end;
    bool unseen = false;
    while (next_ahead(on, in, &to, &end))
        for (stand at = to.at; at.place < end;) {
            piece next = next_piece(on, at, end);
            if (next.class == class)
                return LUTNIORAD_YES;
            unseen |= next.class == NOT_SEEN;
            at = go_on(on, at, next.end);
        }
    return unseen ? LUTNIORAD_CANNOT_TELL : LUTNIORAD_NO;
}

static void add_up(overlay on, window in, uint32_t *out)
{
    walked to = begin_walk(on, in);
    uint32_t end, totals[256] = {0};
    while (next_ahead(on, in, &to, &end))
        for (stand at = to.at; at.place < end;) {
            piece next = next_piece(on, at, end);
            totals[next.class] += next.end - at.place;
            at = go_on(on, at, next.end);
        }
    memcpy(out, totals, sizeof totals);
}

/* ---- Select ---- */

/* Each digit of a pixel's key is one more than that of its place in base 4. */
static inline uint32_t pixel_of(uint32_t m, uint32_t place)
{
    uint32_t key = 0;
    for (uint32_t k = 0; k < m; k++)
        key = 5 * key + (place >> 2 * (m - (k + 1))) % 4 + 1;
    return key;
}

static inline spot spot_at(uint32_t m, uint32_t place)
{
    uint32_t top = (uint32_t)__builtin_ctz(place | pixels(m)) / 2;
    spot at = {place, pixel_of(m, place) - ones[top], top};
    return at;
}

/* Lists the fewest blocks that make up the places from a up to b behind n others; returns how many there are then. */
static uint32_t put_between(uint32_t m, uint32_t a, uint32_t b, uint32_t *out, size_t n_out, uint32_t n)
{
    spot at;
    if (b <= a)
        return n;
    at = spot_at(m, a);
    while (at.place < b) {
        uint32_t i = largest(at.top, b - at.place), key = key_here(at, i);
        put_key(out, n_out, n++, key);
        at = advance(key, i, at.place);
    }
    return n;
}

/* In each block, what goes on from `from` on is of the class. */
static uint32_t put_all(overlay on, window in, uint8_t class, uint32_t *out, size_t n_out)
{
    walked to = begin_walk(on, in);
    uint32_t end, n = 0;
    while (next_ahead(on, in, &to, &end)) {
        uint32_t from = to.at.place;
        for (stand at = to.at; at.place < end;) {
            piece next = next_piece(on, at, end);
            if (next.class != class) {
                n = put_between(on.today.m, from, at.place, out, n_out, n);
                from = next.end;
            }
            at = go_on(on, at, next.end);
        }
        n = put_between(on.today.m, from, end, out, n_out, n);
    }
    return n;
}

/* ---- The calls ---- */

static lutniorad_answer refused_of(uint32_t map, lutniorad_answer verdict)
{
    verdict.first = map;
    return verdict;
}

/* Refusals 1 to 4 of a map that may have gaps. */
static lutniorad_answer sound_with_gaps(layer in)
{
    lutniorad_answer verdict = sized_with_gaps(in.m, in.n_keys, in.n_classes);
    return verdict.refusal != 0 ? verdict : sound_records(in.m, in.keys, in.n_keys, false);
}

/* Refusals 1 to 5, with whose map it is, and 15. */
static lutniorad_answer laid(overlay on)
{
    lutniorad_answer verdict = sound_with_gaps(on.today);
    if (verdict.refusal != 0)
        return refused_of(LUTNIORAD_TODAY, verdict);
    verdict = sound(on.under.m, on.under.keys, on.under.n_keys, on.under.n_classes);
    if (verdict.refusal != 0)
        return refused_of(LUTNIORAD_BASELINE, verdict);
    return on.today.m == on.under.m ? verdict : refused(15, 0);
}

/* Refusals 1 to 7 and 15. Where there is none the border is spent at once. */
static lutniorad_answer begun(overlay on, window in, uint16_t *border, size_t n_border)
{
    lutniorad_answer verdict = in_view(laid(on), on.today.m, in, n_border);
    if (verdict.refusal == 0)
        fill(border, 0, in.w, in.r0 + in.h);
    return verdict;
}

lutniorad_answer plain_overlay_exist(uint32_t m, const uint32_t *keys, size_t n_keys, const uint8_t *classes,
                                     size_t n_classes, uint32_t base_m, const uint32_t *base_keys, size_t n_base_keys,
                                     const uint8_t *base_classes, size_t n_base_classes, uint16_t r0, uint16_t c0,
                                     uint16_t h, uint16_t w, uint8_t class, uint16_t *border, size_t n_border)
{
    overlay on = {{m, keys, n_keys, classes, n_classes},
                  {base_m, base_keys, n_base_keys, base_classes, n_base_classes}};
    window in = {r0, c0, h, w};
    lutniorad_answer verdict = begun(on, in, border, n_border);
    return verdict.refusal != 0 ? verdict : answered(find(on, in, class), 0);
}

lutniorad_answer plain_overlay_report(uint32_t m, const uint32_t *keys, size_t n_keys, const uint8_t *classes,
                                      size_t n_classes, uint32_t base_m, const uint32_t *base_keys, size_t n_base_keys,
                                      const uint8_t *base_classes, size_t n_base_classes, uint16_t r0, uint16_t c0,
                                      uint16_t h, uint16_t w, uint16_t *border, size_t n_border, uint32_t *out,
                                      size_t n_out)
{
    overlay on = {{m, keys, n_keys, classes, n_classes},
                  {base_m, base_keys, n_base_keys, base_classes, n_base_classes}};
    window in = {r0, c0, h, w};
    lutniorad_answer verdict = begun(on, in, border, n_border);
    if (verdict.refusal != 0)
        return verdict;
    if (n_out < 256)
        return refused(8, 256);
    add_up(on, in, out);
    return answered((uint32_t)h * w, 0);
}

lutniorad_answer plain_overlay_select(uint32_t m, const uint32_t *keys, size_t n_keys, const uint8_t *classes,
                                      size_t n_classes, uint32_t base_m, const uint32_t *base_keys, size_t n_base_keys,
                                      const uint8_t *base_classes, size_t n_base_classes, uint16_t r0, uint16_t c0,
                                      uint16_t h, uint16_t w, uint8_t class, uint16_t *border, size_t n_border,
                                      uint32_t *out, size_t n_out)
{
    overlay on = {{m, keys, n_keys, classes, n_classes},
                  {base_m, base_keys, n_base_keys, base_classes, n_base_classes}};
    window in = {r0, c0, h, w};
    lutniorad_answer verdict = begun(on, in, border, n_border);
    if (verdict.refusal != 0)
        return verdict;
    if (n_out < (size_t)h * w) {
        uint32_t needed = put_all(on, in, class, out, 0);
        if (n_out < needed)
            return refused(8, needed);
    }
    return answered(put_all(on, in, class, out, n_out), 0);
}

/* The key is read as that of a map's only record. */
lutniorad_part plain_overlay_part(uint32_t m, const uint32_t *keys, size_t n_keys, const uint8_t *classes,
                                  size_t n_classes, uint32_t base_m, const uint32_t *base_keys, size_t n_base_keys,
                                  const uint8_t *base_classes, size_t n_base_classes, uint32_t key)
{
    overlay on = {{m, keys, n_keys, classes, n_classes},
                  {base_m, base_keys, n_base_keys, base_classes, n_base_classes}};
    lutniorad_answer verdict = laid(on);
    uint32_t exponent;
    run records;
    if (verdict.refusal != 0)
        return (lutniorad_part){verdict.refusal, verdict.place, verdict.first, 0, 0};
    if (sound_records(m, &key, 1, false).refusal != 0)
        return (lutniorad_part){27, 0, 0, 0, 0};
    exponent = zeros_of(m, key);
    records = records_of(m, keys, n_keys, key, exponent);
    if (records.count > 0)
        return (lutniorad_part){0, 0, LUTNIORAD_TODAY, records.first, records.count};
    records = records_of(m, base_keys, n_base_keys, key, exponent);
    return (lutniorad_part){0, 0, LUTNIORAD_BASELINE, records.first, records.count};
}
