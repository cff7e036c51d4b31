/*
 * Opening without a border: a list of all records fetched so far, which grows, and in which each new block is looked
 * up. Memory as long as the map, where the library takes a cell for each column of the window.
 */
#include "parts.h"
#include "programs.h"

/* The keys of all blocks in a fetched record: `count` of them from `key` on. */
typedef struct {
    uint32_t key, count;
} fetched;

static fetched list[65536];
static uint32_t n_fetched;

static inline bool lies_in_fetched(uint32_t key)
{
    for (uint32_t i = 0; i < n_fetched; i++)
        if (key - list[i].key < list[i].count)
            return true;
    return false;
}

static inline void fetch(uint32_t m, const uint32_t *keys, run records)
{
    uint32_t exponent, start;
    for (uint32_t i = records.first; i < records.first + records.count; i++)
        if (read_key(m, keys[i], &exponent, &start)) {
            list[n_fetched].key = keys[i];
            list[n_fetched++].count = pow5(exponent);
        }
}

lutniorad_answer growing_open(uint32_t m, const uint32_t *keys, size_t n_keys, const uint8_t *classes,
                              size_t n_classes, uint16_t r0, uint16_t c0, uint16_t h, uint16_t w, uint16_t *border,
                              size_t n_border, uint32_t *out, size_t n_out)
{
    window at = {r0, c0, h, w};
    block b;
    uint32_t row = r0, col = c0, openings = 0;
    lutniorad_answer verdict = usable(m, keys, n_keys, n_classes, at, n_border);
    (void)classes, (void)border;
    if (verdict.refusal != 0)
        return verdict;
    n_fetched = 0;
    while (next_block(at, m, row, col, &b)) {
        uint32_t key = block_key(m, b.exponent, b.row, b.col);
        if (!lies_in_fetched(key)) {
            run records = records_of(m, keys, n_keys, key, b.exponent);
            fetch(m, keys, records);
            put_opening(out, n_out, openings++, key, records);
        }
        row = b.row;
        col = b.after;
    }
    return answered(openings, n_fetched);
}
