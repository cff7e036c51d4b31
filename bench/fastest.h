/*
 * The calls for as few instructions as can be, by other ways than the library's: what they have in common.
 *   A map is read as the tree that it is: each node is the next record or four nodes, and keys are only added and
 *   compared. Why one is refused is told by the walk of parts.h.
 *   Rows and columns of a window are cut into aligned stretches.
 */
#ifndef FASTEST_H
#define FASTEST_H

#include "parts.h"

/* gcc is told what to inline: it would choose by size. */
#define ALWAYS __attribute__((always_inline)) static inline
#define NEVER __attribute__((noinline, unused)) static

typedef uint32_t four_numbers __attribute__((vector_size(16), aligned(4), may_alias));

static const uint32_t fives[] = {1,     5,      25,      125,     625,      3125,     15625,
                                 78125, 390625, 1953125, 9765625, 48828125, 244140625};

/* ---- The tree of a map ---- */

/* A record of a map. */
typedef struct {
    const uint32_t *key;
    const uint8_t *class;
} record;

static const record NONE = {NULL, NULL};

static inline record behind(record at, size_t n)
{
    record next = {at.key + n, at.class + n};
    return next;
}

/*
 * Each function here takes the records from one on as those of a node that is cut, of a key and an exponent. It returns
 * the one behind them, or NONE where they are others. The last of the map is known to be in the last corner of the
 * picture. Of four children only the last can be there: so none is read behind it. Where totals are lent, each record's
 * pixels are added to that of its class.
 */
static inline void add(uint32_t *totals, record at, uint32_t count)
{
    if (totals)
        totals[*at.class] += count;
}

/* Four records, of `count` pixels each. */
ALWAYS record four_leaves(record at, uint32_t key, uint32_t step, uint32_t count, uint32_t *totals)
{
    if (at.key[0] != key + step || at.key[1] != key + 2 * step || at.key[2] != key + 3 * step ||
        at.key[3] != key + 4 * step)
        return NONE;
#pragma GCC unroll 4
    for (size_t i = 0; i < 4; i++)
        add(totals, behind(at, i), count);
    return behind(at, 4);
}

ALWAYS record one_leaf(record at, uint32_t count, uint32_t *totals)
{
    add(totals, at, count);
    return behind(at, 1);
}

ALWAYS record node_2(record at, uint32_t key, uint32_t *totals)
{
#pragma GCC unroll 4
    for (uint32_t i = 1; i <= 4; i++)
        if (*at.key == key + 5 * i)
            at = one_leaf(at, 4, totals);
        else if (!(at = four_leaves(at, key + 5 * i, 1, 1, totals)).key)
            return NONE;
    return at;
}

ALWAYS record node_3(record at, uint32_t key, uint32_t *totals)
{
#pragma GCC unroll 4
    for (uint32_t i = 1; i <= 4; i++)
        if (*at.key == key + 25 * i)
            at = one_leaf(at, 16, totals);
        else if (!(at = node_2(at, key + 25 * i, totals)).key)
            return NONE;
    return at;
}

/* Of exponent e, 4 or more. Of each node on the way down so many children are left; the next has this key. */
ALWAYS record large_node(record at, uint32_t key, uint32_t e, uint32_t *totals)
{
    uint32_t k = e - 1, step = fives[k], left = 4;
    uint8_t lefts[13];
    key += step;
    for (;;) {
        if (*at.key == key)
            at = one_leaf(at, pixels(k), totals);
        else if (k > 3 && four_leaves(at, key, fives[k - 1], pixels(k - 1), totals).key)
            at = behind(at, 4);
        else if (k > 3) {
            lefts[k--] = (uint8_t)left;
            left = 4;
            step = fives[k];
            key += step;
            continue;
        } else if (!(at = node_3(at, key, totals)).key)
            return NONE;
        key += step;
        while (--left == 0) {
            if (++k == e)
                return at;
            step = fives[k];
            left = lefts[k];
        }
    }
}

ALWAYS record node(record at, uint32_t key, uint32_t e, uint32_t *totals)
{
    if (e > 3)
        return large_node(at, key, e, totals);
    if (e == 3)
        return node_3(at, key, totals);
    return e == 2 ? node_2(at, key, totals) : four_leaves(at, key, 1, 1, totals);
}

/* The key alone, so that the classes are left out altogether. */
NEVER const uint32_t *check_keys(const uint32_t *at, uint32_t key, uint32_t e)
{
    record first = {at, NULL};
    return node(first, key, e, NULL).key;
}

static inline record check_node(record at, uint32_t key, uint32_t e)
{
    const uint32_t *end = check_keys(at.key, key, e);
    return end ? behind(at, (size_t)(end - at.key)) : NONE;
}

NEVER __attribute__((nonnull)) record gather_node(record at, uint32_t key, uint32_t e, uint32_t *totals)
{
    return node(at, key, e, totals);
}

/* Is the key that of a block with the last pixel in it? Then it is 5^m less a power of 5. */
static inline bool is_last(uint32_t m, uint32_t key)
{
    for (uint32_t i = 0; i < m; i++)
        if (fives[m] - key == fives[i])
            return true;
    return false;
}

static inline bool is_sound(uint32_t m, const uint32_t *keys, const uint8_t *classes, size_t q)
{
    record first = {keys, classes};
    if (keys[0] == 0)
        return q == 1;
    return is_last(m, keys[q - 1]) && check_node(first, 0, m).key == keys + q;
}

/* ---- Windows ---- */

/* Rows or columns, 2^exponent of them: E of the first, and that without as many digits 1, for blocks of that side. */
typedef struct {
    uint32_t start, exponent, first, less;
} stretch;

enum { MOST_STRETCHES = 24 };

/* The fewest aligned stretches; their exponents rise and then fall. */
static inline uint32_t cut(uint32_t start, uint32_t count, stretch *to)
{
    uint32_t n = 0;
    for (uint32_t left = count; left > 0; n++) {
        uint32_t e = least((uint32_t)__builtin_ctz(start | 0x10000), 31 ^ (uint32_t)__builtin_clz(left));
        to[n].start = start;
        to[n].exponent = e;
        to[n].first = spread(start);
        to[n].less = to[n].first - ones[e];
        start += 1u << e;
        left -= 1u << e;
    }
    return n;
}

#endif
