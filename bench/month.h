/* The tables of a month to which a map is added. */
#ifndef MONTH_H
#define MONTH_H

#include "maps.h"

#include <stdbool.h>

enum { MONTH_CELLS = 6 + 4 * 256 };

/* The month of a window with no map, or with one that is all scum. */
void make_month(uint64_t table[MONTH_CELLS], uint32_t m, rectangle at, bool one);

/* Is this that month, and a map added to it that has these pixels of each class in the window? */
bool is_month_with(const uint64_t table[MONTH_CELLS], uint32_t m, rectangle at, bool one, const uint32_t totals[256]);

#endif
