/* The library's algorithm in plain C: reading and writing a house file. */
#include "parts.h"
#include "programs.h"

enum { FIELDS = 5, HEADER = 4 * FIELDS };

/* ---- Numbers in bytes ---- */

/*
 * Thirty-two bytes at a time, as the library's compiler makes it of one number at a time where they lie in memory as in
 * the file. Returns how many of the n bytes were moved.
 */
typedef uint8_t sixteen_bytes __attribute__((vector_size(16), aligned(1), may_alias));

static inline size_t move(const void *from, size_t n, void *to)
{
    size_t moved = n - n % 32;
    for (size_t i = 0; i < moved; i += 32) {
        const sixteen_bytes *some = (const void *)((const uint8_t *)from + i);
        sixteen_bytes first = some[0], second = some[1], *others = (void *)((uint8_t *)to + i);
        others[0] = first;
        others[1] = second;
    }
    return moved;
}

static inline uint32_t get(const uint8_t *from)
{
    return from[0] | (uint32_t)from[1] << 8 | (uint32_t)from[2] << 16 | (uint32_t)from[3] << 24;
}

static inline void put(uint32_t x, uint8_t *to)
{
    to[0] = (uint8_t)(x % 256);
    to[1] = (uint8_t)(x / 256 % 256);
    to[2] = (uint8_t)(x / 256 / 256 % 256);
    to[3] = (uint8_t)(x / 256 / 256 / 256 % 256);
}

static inline void get_all(const uint8_t *from, uint32_t *cells, size_t n)
{
    for (size_t i = move(from, 4 * n, cells) / 4; i < n; i++)
        cells[i] = get(from + 4 * i);
}

static inline void put_all(const uint32_t *list, size_t n, uint8_t *to)
{
    for (size_t i = move(list, 4 * n, to) / 4; i < n; i++)
        put(list[i], to + 4 * i);
}

static inline void copy(const uint8_t *from, size_t n, uint8_t *to)
{
    for (size_t i = move(from, n, to); i < n; i++)
        to[i] = from[i];
}

/* ---- Reading ---- */

/* What is wrong with the five fields of a header, in a file of so many bytes. */
static lutniorad_answer layout(size_t size, const uint32_t fields[FIELDS])
{
    size_t q = fields[2];
    lutniorad_answer verdict = sized(fields[1], q, q);
    if (fields[0] != size)
        return refused(9, 0);
    if (verdict.refusal != 0)
        return verdict;
    if (size != HEADER + 5 * q)
        return refused(9, 8);
    if (fields[3] != HEADER)
        return refused(9, 12);
    if (fields[4] != HEADER + 4 * q)
        return refused(9, 16);
    return verdict;
}

lutniorad_answer plain_read(const uint8_t *file, size_t n, uint32_t *keys, size_t n_keys, uint8_t *classes,
                            size_t n_classes)
{
    uint32_t fields[FIELDS] = {0};
    if (n < HEADER)
        return refused(9, 0);
    get_all(file, fields, FIELDS);
    lutniorad_answer verdict = layout(n, fields);
    size_t q = fields[2];
    if (verdict.refusal != 0)
        return verdict;
    if (n_keys < q || n_classes < q)
        return refused(8, (uint32_t)q);
    get_all(file + HEADER, keys, q);
    copy(file + HEADER + 4 * q, q, classes);
    return answered(fields[1], (uint32_t)q);
}

/* ---- Writing ---- */

static void put_parts(uint32_t m, const uint32_t *keys, const uint8_t *classes, size_t q, uint8_t *out)
{
    const uint32_t fields[FIELDS] = {(uint32_t)(HEADER + 5 * q), m, (uint32_t)q, HEADER, (uint32_t)(HEADER + 4 * q)};
    put_all(fields, FIELDS, out);
    put_all(keys, q, out + HEADER);
    copy(classes, q, out + HEADER + 4 * q);
}

lutniorad_answer plain_write(uint32_t m, const uint32_t *keys, size_t n_keys, const uint8_t *classes, size_t n_classes,
                             uint8_t *out, size_t n_out)
{
    lutniorad_answer verdict = sized(m, n_keys, n_classes);
    uint32_t size = (uint32_t)(HEADER + 5 * n_keys);
    if (verdict.refusal != 0)
        return verdict;
    if (n_out < size)
        return refused(8, size);
    put_parts(m, keys, classes, n_keys, out);
    return answered(size, 0);
}
