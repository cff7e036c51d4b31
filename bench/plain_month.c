/* The library's algorithm in plain C: adding a map to a month. */
#include "programs.h"
#include "totals.h"

enum { MAPS_ADDED = 5, ROWS, MONTH_CELLS = ROWS + 4 * 256, MOST_MAPS = 1000 };

/* A number that does not fit 16 bits lies outside every picture, as the greatest that fits does. */
static uint32_t narrow(uint64_t cell)
{
    return cell < UINT16_MAX ? (uint32_t)cell : UINT16_MAX;
}

static window window_in(const uint64_t *table)
{
    window at = {narrow(table[1]), narrow(table[2]), narrow(table[3]), narrow(table[4])};
    return at;
}

/* Has some class a sum over `most`, or more than so many maps? */
static bool any_over(uint64_t most, uint64_t maps, const uint64_t *table)
{
    for (int i = ROWS; i < MONTH_CELLS; i += 4)
        if (most < table[i + 2] || maps < table[i + 3])
            return true;
    return false;
}

/* Refusal 26. */
static bool spoiled(uint32_t m, const uint64_t *table)
{
    window at = window_in(table);
    uint64_t maps = table[MAPS_ADDED];
    return outside(m, at) || MOST_MAPS < maps || any_over(maps * at.h * at.w, maps, table);
}

/* All refusals of adding. */
static lutniorad_answer addable(uint32_t m, const uint32_t *keys, size_t n_keys, size_t n_classes, size_t cells,
                                const uint64_t *table, size_t n_table)
{
    lutniorad_answer verdict = sound(m, keys, n_keys, n_classes);
    if (verdict.refusal != 0)
        return verdict;
    if (n_table < MONTH_CELLS)
        return refused(8, MONTH_CELLS);
    if (table[0] != m)
        return refused(15, 0);
    if (spoiled(m, table))
        return refused(26, 0);
    if (table[MAPS_ADDED] == MOST_MAPS)
        return refused(16, 0);
    if (cells < window_in(table).w)
        return refused(7, window_in(table).w);
    return verdict;
}

/* A map more in the row of a class, of which it has so many pixels. */
static void add_row(uint64_t *row, bool first, uint64_t pixels)
{
    if (first || pixels < row[0])
        row[0] = pixels;
    if (first || row[1] < pixels)
        row[1] = pixels;
    row[2] += pixels;
    row[3] += pixels != 0;
}

static void add_totals(work on, const uint8_t *classes, bool first, uint64_t *rows)
{
    place p = begin(on);
    opening o;
    uint32_t totals[256] = {0};
    while (next_opening(on, &p, &o))
        gather(on, classes, o, totals);
    for (int k = 0; k < 256; k++)
        add_row(rows + 4 * k, first, totals[k]);
}

lutniorad_answer plain_month_add(uint32_t m, const uint32_t *keys, size_t n_keys, const uint8_t *classes,
                                 size_t n_classes, uint16_t *border, size_t n_border, uint64_t *table, size_t n_table)
{
    lutniorad_answer verdict = addable(m, keys, n_keys, n_classes, n_border, table, n_table);
    if (verdict.refusal != 0)
        return verdict;
    work on = {m, keys, n_keys, window_in(table), border};
    add_totals(on, classes, table[MAPS_ADDED] == 0, table + ROWS);
    table[MAPS_ADDED]++;
    return answered((uint32_t)table[MAPS_ADDED], 0);
}
