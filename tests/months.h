/*
 * Groups of cases about months: clearing one, and adding maps to it. Besides the comparison, call by call, each row of
 * calls from a clearing one on is held against the list of the maps that were taken.
 */
#ifndef MONTHS_H
#define MONTHS_H

#include "maps.h"

void group_months_written_out(void);
void group_clearing_months(void);
void group_small_months(void);
void group_spoiled_tables(void);
void group_month_refusals(void);
void group_month_old_contents(void);
void group_vast_tables(void);
void group_full_months(void);
void group_largest_sums(void);
void group_random_months(void);

/* Begins a month of the window, and adds the map to it, on slices that are just long enough. */
void try_month(const map *a, window at);

#endif
