/*
 * Groups of cases about many windows on one map. Besides the comparison, lists of most groups are held against the
 * library's own calls about their windows one by one, and against the same list cut in two.
 */
#ifndef MANY_H
#define MANY_H

#include "maps.h"

void group_lists_written_out(void);
void group_list_lengths(void);
void group_small_lists(void);
void group_list_refusals(void);
void group_lists_on_damaged_maps(void);
void group_vast_lists(void);
void group_large_lists(void);
void group_random_lists(void);

/* A short list of windows of a large map. */
void try_many(const map *a);

#endif
