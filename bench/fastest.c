/*
 * Check and decompose for as few instructions as can be. Of the maximal blocks' keys, whatever repeats is copied, four
 * at a time.
 */
#include "fastest.h"
#include "programs.h"

lutniorad_answer fastest_check(uint32_t m, const uint32_t *keys, size_t n_keys, const uint8_t *classes,
                               size_t n_classes)
{
    lutniorad_answer verdict = sized(m, n_keys, n_classes);
    if (verdict.refusal == 0 && !is_sound(m, keys, classes, n_keys))
        return sound_records(m, keys, n_keys, true);
    return verdict;
}

/* n keys once more, each greater by as much. Returns where they end. */
static inline uint32_t *again(uint32_t *to, const uint32_t *from, size_t n, uint32_t by)
{
    four_numbers more = (four_numbers){0} + by;
    size_t i = 0;
    for (; i + 4 <= n; i += 4)
        *(four_numbers *)(to + i) = *(const four_numbers *)(from + i) + more;
    for (; i < n; i++)
        to[i] = from[i] + by;
    return to + n;
}

/* The blocks whose corners are in the first row of a stretch. */
static uint32_t *first_row(uint32_t *to, uint32_t key, uint32_t exponent, const stretch *cols, uint32_t n)
{
    for (uint32_t i = 0; i < n; i++) {
        uint32_t *from = to;
        if (cols[i].exponent <= exponent)
            *to++ = key + cols[i].less;
        else {
            *to++ = key + cols[i].first - ones[exponent];
            for (uint32_t k = exponent; k < cols[i].exponent; k++)
                to = again(to, from, (size_t)1 << (k - exponent), fives[k]);
        }
    }
    return to;
}

/* Those in its other rows. Behind row 2^k the blocks come once more that came between the first row and that. */
static uint32_t *other_rows(uint32_t *to, uint32_t key, uint32_t exponent, const stretch *cols, uint32_t n)
{
    const uint32_t *from = to;
    uint32_t west = 0, east = n;
    for (uint32_t k = 0; k < exponent; k++) {
        uint32_t by = 2 * fives[k];
        size_t before = (size_t)(to - from);
        while (west < east && cols[west].exponent <= k)
            west++;
        while (west < east && cols[east - 1].exponent <= k)
            east--;
        for (uint32_t i = 0; i < west; i++)
            *to++ = key + by + cols[i].less;
        for (uint32_t i = east; i < n; i++)
            *to++ = key + by + cols[i].less;
        to = again(to, from, before, by);
    }
    return to;
}

static uint32_t count_blocks(const stretch *rows, uint32_t n_rows, const stretch *cols, uint32_t n_cols)
{
    uint32_t count = 0;
    for (uint32_t i = 0; i < n_rows; i++)
        for (uint32_t j = 0; j < n_cols; j++) {
            uint32_t a = rows[i].exponent, b = cols[j].exponent;
            count += 1u << (a < b ? b - a : a - b);
        }
    return count;
}

lutniorad_answer fastest_decompose(uint32_t m, uint16_t r0, uint16_t c0, uint16_t h, uint16_t w, uint32_t *out,
                                   size_t n_out)
{
    window at = {r0, c0, h, w};
    stretch rows[MOST_STRETCHES], cols[MOST_STRETCHES];
    uint32_t n_rows, n_cols, *to = out;
    if (m > 12)
        return refused(1, 0);
    if (outside(m, at))
        return refused(6, 0);
    n_rows = cut(r0, h, rows);
    n_cols = cut(c0, w, cols);
    if (n_out < 4 * ((size_t)w + h)) {
        uint32_t needed = count_blocks(rows, n_rows, cols, n_cols);
        if (n_out < needed)
            return refused(8, needed);
    }
    for (uint32_t i = 0; i < n_rows; i++) {
        uint32_t key = ones[m] + 2 * rows[i].first;
        to = first_row(to, key, rows[i].exponent, cols, n_cols);
        to = other_rows(to, key, rows[i].exponent, cols, n_cols);
    }
    return answered((uint32_t)(to - out), 0);
}
