/*
 * The library's algorithm in plain C, as far as all that is measured beside it has it in common: keys, the check of a
 * map, the walk over a window's maximal blocks, the search for a block's records. Function by function as in crates/,
 * with no cleverer step. In a header, so that the compiler sees the whole of each program, as the library's does.
 */
#ifndef PARTS_H
#define PARTS_H

#include "lutniorad.h"

#include <stdbool.h>
#include <stddef.h>
#include <stdint.h>

typedef struct {
    uint32_t r0, c0, h, w;
} window;

/* A maximal block, with the column of its row from which the walk goes on. */
typedef struct {
    uint32_t row, col, exponent, after;
} block;

typedef struct {
    uint32_t row, col, exponent;
} square;

/*
 * So many records of a map, from the first on, which overlap a block; and the exponent of the larger of the block and
 * the record of its first place.
 */
typedef struct {
    uint32_t first, count, reach;
} run;

static inline lutniorad_answer answered(uint32_t first, uint32_t second)
{
    lutniorad_answer answer = {0, 0, first, second};
    return answer;
}

static inline lutniorad_answer refused(uint32_t number, uint32_t place)
{
    lutniorad_answer answer = {number, place, 0, 0};
    return answer;
}

static inline uint32_t least(uint32_t a, uint32_t b)
{
    return a < b ? a : b;
}

/* Eight cells at a time, as the library's compiler makes it of one at a time. */
typedef uint16_t eight_cells __attribute__((vector_size(16), aligned(2), may_alias));

static inline void fill(uint16_t *cells, size_t from, size_t to, uint32_t value)
{
    eight_cells eight = (eight_cells){0} + (uint16_t)value;
    size_t i = from;
    for (; i + 8 <= to; i += 8)
        *(eight_cells *)(cells + i) = eight;
    for (; i < to; i++)
        cells[i] = (uint16_t)value;
}

/* ---- Keys ---- */

#define SPREAD_1(x) (x), (x) + 1
#define SPREAD_2(x) SPREAD_1(x), SPREAD_1((x) + 5)
#define SPREAD_3(x) SPREAD_2(x), SPREAD_2((x) + 25)
#define SPREAD_4(x) SPREAD_3(x), SPREAD_3((x) + 125)
#define SPREAD_5(x) SPREAD_4(x), SPREAD_4((x) + 625)
#define SPREAD_6(x) SPREAD_5(x), SPREAD_5((x) + 3125)
#define SPREAD_7(x) SPREAD_6(x), SPREAD_6((x) + 15625)
#define SPREAD_8(x) SPREAD_7(x), SPREAD_7((x) + 78125)

static const uint32_t spreads[256] = {SPREAD_8(0)};

/* (5^i - 1)/4, i digits 1. They leave different remainders by 16; at each of these, the number of digits. */
static const uint32_t ones[13] = {0,     1,     6,      31,      156,      781,     3906,
                                  19531, 97656, 488281, 2441406, 12207031, 61035156};
static const uint8_t digits[16] = {0, 1, 6, 0, 12, 0, 2, 11, 8, 9, 0, 7, 4, 5, 10, 3};

static inline uint32_t spread(uint32_t x)
{
    return spreads[x % 256] + 390625 * spreads[x / 256];
}

static inline uint32_t pow5(uint32_t k)
{
    return spread(1u << k);
}

static inline uint32_t pixel_key(uint32_t m, uint32_t row, uint32_t col)
{
    return spread((1u << m) - 1) + 2 * spread(row) + spread(col);
}

/* By the corner of the block. */
static inline uint32_t block_key(uint32_t m, uint32_t i, uint32_t row, uint32_t col)
{
    return pixel_key(m, row, col) - spread((1u << i) - 1);
}

static inline uint32_t pixels(uint32_t exponent)
{
    return (uint32_t)1 << 2 * exponent;
}

/* A key without the zeros that it ends in, and how many they are. */
typedef struct {
    uint32_t rest, zeros;
} stripped;

/* Does a power of 5 divide a key? If so, that is the key without as many zeros. */
static inline bool strip(uint32_t key, uint32_t power, uint32_t *rest)
{
    *rest = key / power;
    return *rest * power == key;
}

/* Without all its zeros but at most two. The key is not 0 and has at most 12 digits. */
static inline stripped strip_most(uint32_t key)
{
    uint32_t rest;
    if (key >= 390625) {
        if (strip(key, 48828125, &rest))
            return (stripped){rest, 11};
        if (strip(key, 390625, &rest))
            return (stripped){rest, 8};
    }
    if (strip(key, 3125, &rest))
        return (stripped){rest, 5};
    if (strip(key, 25, &rest))
        return (stripped){rest, 2};
    return (stripped){key, 0};
}

/* Without all of them. */
static inline stripped strip_zeros(uint32_t key)
{
    stripped most = strip_most(key);
    uint32_t rest;
    if (most.rest < 5)
        return most;
    if (strip(most.rest, 25, &rest))
        return (stripped){rest, most.zeros + 2};
    if (strip(most.rest, 5, &rest))
        return (stripped){rest, most.zeros + 1};
    return most;
}

/* What two digits a and b from 1 to 4 are worth, at 5a + b: 4(a - 1) + b - 1. At all other places: none. */
enum { NO_PAIR = 16 };
static const uint8_t pairs[25] = {
    16, 16, 16, 16, 16, /* a = 0 */
    16, 0,  1,  2,  3,  /* a = 1 */
    16, 4,  5,  6,  7,  /* a = 2 */
    16, 8,  9,  10, 11, /* a = 3 */
    16, 12, 13, 14, 15, /* a = 4 */
};

/* The start of a key that is not 0; false where it has not m digits, those before its zeros from 1 to 4. */
static inline bool read_digits(uint32_t m, stripped bare, uint32_t *start)
{
    uint32_t rest = bare.rest, k = bare.zeros, sum = 0;
    while (rest >= 25) {
        uint32_t pair = pairs[rest % 25];
        if (pair == NO_PAIR)
            return false;
        sum += pair << 2 * k;
        rest /= 25;
        k += 2;
    }
    if (rest < 5) {
        *start = sum + ((rest - 1) << 2 * k);
        return k + 1 == m;
    }
    *start = sum + ((uint32_t)pairs[rest] << 2 * k);
    return pairs[rest] != NO_PAIR && k + 2 == m;
}

/* Exponent and start of a key; false where it is malformed. */
static inline bool read_key(uint32_t m, uint32_t key, uint32_t *exponent, uint32_t *start)
{
    stripped bare;
    *exponent = m;
    *start = 0;
    if (key == 0)
        return true;
    if (key >= 244140625)
        return false;
    bare = strip_zeros(key);
    *exponent = bare.zeros;
    return read_digits(m, bare, start);
}

/* The square that a number names if it is the key of a block, digit by digit from the small end; else some square. */
static inline square square_of(uint32_t m, uint32_t key)
{
    square of = {0, 0, 0};
    for (uint32_t k = 0; k < m; k++, key /= 5) {
        uint32_t digit = key % 5;
        if (digit == 0) {
            of.exponent++;
        } else {
            of.row += (digit - 1) / 2 << k;
            of.col += (digit - 1) % 2 << k;
        }
    }
    return of;
}

static inline uint32_t alignment(uint32_t m, uint32_t x)
{
    return least((uint32_t)__builtin_ctz(x | 0x10000), m);
}

/* Where a walk along the keys stands: a place, and the largest block that starts there, by its key and its exponent. */
typedef struct {
    uint32_t place, key, top;
} spot;

static inline spot first_spot(uint32_t m)
{
    spot first = {0, 0, m};
    return first;
}

/* The exponent of a key's block that starts there; false where the key is another. */
static inline bool exponent_at(uint32_t m, spot at, uint32_t key, uint32_t *exponent)
{
    uint32_t over;
    if (at.place == pixels(m))
        return false;
    *exponent = at.top;
    if (key == at.key)
        return true;
    over = at.key + ones[at.top] - key;
    *exponent = digits[over % 16];
    return ones[*exponent] == over && *exponent <= at.top;
}

/* The same of a key that is known to be one's that starts there. */
static inline uint32_t exponent_here(spot at, uint32_t key)
{
    return key == at.key ? at.top : digits[(at.key + ones[at.top] - key) % 16];
}

/* Behind the block of a key, of exponent i, that starts at a place. */
static inline spot advance(uint32_t key, uint32_t i, uint32_t start)
{
    uint32_t place = start + pixels(i);
    spot next = {place, key + 4 * ones[i] + 1, (uint32_t)__builtin_ctz(place) / 2};
    return next;
}

/* The exponent, up to `top`, of the largest block with no more than so many places. */
static inline uint32_t largest(uint32_t top, uint32_t places)
{
    return least((30 - (uint32_t)__builtin_clz(2 * places + 1)) / 2, top);
}

/* The key of the block of exponent i that starts there. */
static inline uint32_t key_here(spot at, uint32_t i)
{
    return at.key + ones[at.top] - ones[i];
}

/*
 * How far the block of a key reaches around the block of a larger key and its exponent i: its own exponent where it
 * contains it, otherwise i.
 */
static inline uint32_t reach_over(uint32_t m, uint32_t own, uint32_t key, uint32_t i)
{
    uint32_t over = key - own, e = i, p = pow5(i);
    if (own == 0)
        return m;
    for (; p <= over; e++)
        p *= 5;
    return own % p != 0 ? i : e;
}

/* ---- Maps ---- */

/* How far a walk along the records has come: where it stands, and the next record. */
typedef struct {
    spot at;
    size_t next;
} gone;

/* Goes from record n on as long as each record starts where the last one's span ended. */
static inline gone along(uint32_t m, const uint32_t *keys, size_t q, spot from, size_t n)
{
    gone to = {from, n};
    uint32_t exponent;
    while (to.next < q && exponent_at(m, to.at, keys[to.next], &exponent)) {
        to.at = advance(keys[to.next], exponent, to.at.place);
        to.next++;
    }
    return to;
}

/* Why a record is refused that does not start at the place reached; if it is not, it is a block behind a gap. */
static inline lutniorad_answer misfit(bool whole, uint32_t m, uint32_t at, uint32_t key, uint32_t n,
                                      uint32_t *exponent, uint32_t *start)
{
    if (!read_key(m, key, exponent, start))
        return refused(3, n);
    if (*start < at)
        return refused(4, n);
    return whole ? refused(5, n) : answered(n, 0);
}

/* Behind the last record: refused where the map is to be whole and the picture does not end there. */
static inline lutniorad_answer ended(bool whole, uint32_t m, uint32_t at, uint32_t q)
{
    return whole && at < pixels(m) ? refused(5, q) : answered(q, 0);
}

/* Refusals 3 to 5. A map that need not be whole may have gaps. */
static inline lutniorad_answer sound_records(uint32_t m, const uint32_t *keys, size_t q, bool whole)
{
    gone to = along(m, keys, q, first_spot(m), 0);
    while (to.next < q) {
        uint32_t key = keys[to.next], exponent, start;
        lutniorad_answer verdict = misfit(whole, m, to.at.place, key, (uint32_t)to.next, &exponent, &start);
        if (verdict.refusal != 0)
            return verdict;
        to = along(m, keys, q, advance(key, exponent, start), to.next + 1);
    }
    return ended(whole, m, to.at.place, (uint32_t)q);
}

/* Refusals 1 and 2. */
static inline lutniorad_answer sized(uint32_t m, size_t n_keys, size_t n_classes)
{
    if (m > 12)
        return refused(1, 0);
    if (n_keys != n_classes || n_keys == 0 || n_keys > 65536)
        return refused(2, 0);
    return answered((uint32_t)n_keys, 0);
}

/* The same of a map that may have gaps, and so no record. */
static inline lutniorad_answer sized_with_gaps(uint32_t m, size_t n_keys, size_t n_classes)
{
    if (m <= 12 && n_keys == 0 && n_classes == 0)
        return answered(0, 0);
    return sized(m, n_keys, n_classes);
}

/* Refusals 1 to 5. */
static inline lutniorad_answer sound(uint32_t m, const uint32_t *keys, size_t n_keys, size_t n_classes)
{
    lutniorad_answer verdict = sized(m, n_keys, n_classes);
    return verdict.refusal != 0 ? verdict : sound_records(m, keys, n_keys, true);
}

/* How many keys are below x, where those before `from` are. */
static inline size_t keys_below(const uint32_t *keys, size_t q, uint32_t x, size_t from)
{
    size_t low = from, high = q;
    while (low < high) {
        size_t middle = (low + high) / 2;
        if (keys[middle] < x)
            low = middle + 1;
        else
            high = middle;
    }
    return low;
}

/* How many records lie in the block of a key and its exponent, from `first` on, the first record that can. */
static inline size_t records_inside(const uint32_t *keys, size_t q, uint32_t key, uint32_t i, size_t first)
{
    uint32_t end = key + pow5(i);
    if (first == q)
        return 0;
    if (keys[first] == key)
        return 1;
    return end <= keys[first] ? 0 : keys_below(keys, q, end, first + 1) - first;
}

/* The records that overlap a block in which none lies: the one before it in the list, if that is around it, or none. */
static inline run record_around(uint32_t m, const uint32_t *keys, uint32_t key, uint32_t i, size_t next)
{
    run none = {0, 0, i}, around = {(uint32_t)next - 1, 1, i};
    if (next == 0)
        return none;
    around.reach = reach_over(m, keys[next - 1], key, i);
    return around.reach == i ? none : around;
}

/* The records that overlap the block of a key and its exponent. */
static inline run records_of(uint32_t m, const uint32_t *keys, size_t q, uint32_t key, uint32_t i)
{
    size_t first = keys_below(keys, q, key, 0), count = records_inside(keys, q, key, i, first);
    run inside = {(uint32_t)first, (uint32_t)count, i};
    return count == 0 ? record_around(m, keys, key, i, first) : inside;
}

/* ---- Windows ---- */

static inline bool beyond(uint32_t m, uint32_t start, uint32_t count)
{
    return count == 0 || (uint32_t)1 << m < start + count;
}

static inline bool outside(uint32_t m, window at)
{
    return beyond(m, at.r0, at.h) || beyond(m, at.c0, at.w);
}

static inline uint32_t floor_to(uint32_t i, uint32_t x)
{
    return x >> i << i;
}

/* 2^i or more exactly when x's block of side 2^i lies in the `count` numbers from `start` on, of which x is one. */
static inline uint32_t reach(uint32_t start, uint32_t count, uint32_t x)
{
    uint32_t before = (start + 4095) ^ (x + 4096), behind = (start + count + 4096) ^ (x + 4096);
    return least(before, behind);
}

/* Of the maximal block that holds a pixel. */
static inline uint32_t exponent_of(window at, uint32_t top, uint32_t row, uint32_t col)
{
    uint32_t room = least(reach(at.r0, at.h, row), reach(at.c0, at.w, col));
    return least(31 ^ (uint32_t)__builtin_clz(room), top);
}

/* The next maximal block from a row and a column on; false where there is none. */
static inline bool next_block(window at, uint32_t top, uint32_t row, uint32_t col, block *next)
{
    uint32_t south = at.r0 + at.h, east = at.c0 + at.w;
    for (;;) {
        if (col < east) {
            uint32_t e = exponent_of(at, top, row, col), by_row = alignment(top, row);
            if (by_row < e)
                col = floor_to(by_row + 1, east);
            else if (e <= alignment(by_row, col)) {
                block found = {row, col, e, col + (1u << e)};
                *next = found;
                return true;
            } else
                col = floor_to(e, col) + (1u << e);
        } else {
            row++;
            if (row == south)
                return false;
            col = at.c0;
        }
    }
}

/* Refusals 6 and 7, behind what was said before. */
static inline lutniorad_answer in_view(lutniorad_answer verdict, uint32_t m, window at, size_t cells)
{
    if (verdict.refusal != 0)
        return verdict;
    if (outside(m, at))
        return refused(6, 0);
    if (cells < at.w)
        return refused(7, at.w);
    return verdict;
}

/* Refusals 1 to 7. */
static inline lutniorad_answer usable(uint32_t m, const uint32_t *keys, size_t n_keys, size_t n_classes, window at,
                                      size_t cells)
{
    return in_view(sound(m, keys, n_keys, n_classes), m, at, cells);
}

/* Writes a key behind n others, where there is room for it. */
static inline void put_key(uint32_t *out, size_t n_out, uint32_t n, uint32_t key)
{
    if (n < n_out)
        out[n] = key;
}

/* Writes an opening behind n others, where there is room for it. */
static inline void put_opening(uint32_t *out, size_t n_out, uint32_t n, uint32_t key, run records)
{
    size_t i = 3 * (size_t)n;
    if (n_out < i + 3)
        return;
    out[i] = key;
    out[i + 1] = records.first;
    out[i + 2] = records.count;
}

#endif
