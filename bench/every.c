/* Algorithm-1: each maximal block fetches its records, whether they were fetched before or not. */
#include "parts.h"
#include "programs.h"

lutniorad_answer every_open(uint32_t m, const uint32_t *keys, size_t n_keys, const uint8_t *classes, size_t n_classes,
                            uint16_t r0, uint16_t c0, uint16_t h, uint16_t w, uint16_t *border, size_t n_border,
                            uint32_t *out, size_t n_out)
{
    window at = {r0, c0, h, w};
    block b;
    uint32_t row = r0, col = c0, blocks = 0, fetched = 0;
    lutniorad_answer verdict = usable(m, keys, n_keys, n_classes, at, n_border);
    (void)classes, (void)border;
    if (verdict.refusal != 0)
        return verdict;
    while (next_block(at, m, row, col, &b)) {
        uint32_t key = block_key(m, b.exponent, b.row, b.col);
        run records = records_of(m, keys, n_keys, key, b.exponent);
        put_opening(out, n_out, blocks++, key, records);
        fetched += records.count;
        row = b.row;
        col = b.after;
    }
    return answered(blocks, fetched);
}
