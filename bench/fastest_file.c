/*
 * Reading and writing a house file, and copying a map, for as few instructions as can be. This processor has its
 * numbers little-endian, as the file has: so all of them are copied, and not by memcpy, whose instruction that repeats
 * would count once.
 */
#include "parts.h"
#include "programs.h"

typedef uint8_t sixteen_bytes __attribute__((vector_size(16), aligned(1), may_alias));
typedef uint32_t number_in_bytes __attribute__((aligned(1), may_alias));

static inline void move_sixteen(uint8_t *to, const uint8_t *from)
{
    *(sixteen_bytes *)to = *(const sixteen_bytes *)from;
}

/* Fewer than sixteen bytes. */
static inline void move_few(uint8_t *to, const uint8_t *from, size_t n)
{
    size_t i = 0;
    for (; i + 4 <= n; i += 4)
        *(number_in_bytes *)(to + i) = *(const number_in_bytes *)(from + i);
    for (; i < n; i++)
        to[i] = from[i];
}

/* Of the last sixteen bytes some may have been moved already. */
static inline void move(void *to_cells, const void *from_cells, size_t n)
{
    uint8_t *to = to_cells;
    const uint8_t *from = from_cells;
    size_t i = 0;
    if (n < 16) {
        move_few(to, from, n);
        return;
    }
    for (; i + 256 <= n; i += 256)
#pragma GCC unroll 16
        for (size_t k = i; k < i + 256; k += 16)
            move_sixteen(to + k, from + k);
    for (; i + 16 < n; i += 16)
        move_sixteen(to + i, from + i);
    move_sixteen(to + n - 16, from + n - 16);
}

void fastest_copy(const uint32_t *keys, const uint8_t *classes, size_t q, uint32_t *out_keys, uint8_t *out_classes)
{
    move(out_keys, keys, 4 * q);
    move(out_classes, classes, q);
}

enum { SIZE, M, Q, KEYS_AT, CLASSES_AT, HEADER = 20 };

lutniorad_answer fastest_read(const uint8_t *file, size_t n, uint32_t *keys, size_t n_keys, uint8_t *classes,
                              size_t n_classes)
{
    const number_in_bytes *fields = (const number_in_bytes *)file;
    if (n < HEADER || fields[SIZE] != n)
        return refused(9, 0);
    size_t q = fields[Q];
    lutniorad_answer verdict = sized(fields[M], q, q);
    if (verdict.refusal != 0)
        return verdict;
    if (n != HEADER + 5 * q)
        return refused(9, 8);
    if (fields[KEYS_AT] != HEADER)
        return refused(9, 12);
    if (fields[CLASSES_AT] != HEADER + 4 * q)
        return refused(9, 16);
    if (n_keys < q || n_classes < q)
        return refused(8, (uint32_t)q);
    move(keys, file + HEADER, 4 * q);
    move(classes, file + HEADER + 4 * q, q);
    return answered(fields[M], (uint32_t)q);
}

lutniorad_answer fastest_write(uint32_t m, const uint32_t *keys, size_t n_keys, const uint8_t *classes,
                               size_t n_classes, uint8_t *out, size_t n_out)
{
    lutniorad_answer verdict = sized(m, n_keys, n_classes);
    uint32_t q = (uint32_t)n_keys, size = HEADER + 5 * q;
    number_in_bytes *fields = (number_in_bytes *)out;
    if (verdict.refusal != 0)
        return verdict;
    if (n_out < size)
        return refused(8, size);
    fields[SIZE] = size;
    fields[M] = m;
    fields[Q] = q;
    fields[KEYS_AT] = HEADER;
    fields[CLASSES_AT] = HEADER + 4 * q;
    move(out + HEADER, keys, 4 * n_keys);
    move(out + HEADER + 4 * q, classes, n_keys);
    return answered(size, 0);
}
