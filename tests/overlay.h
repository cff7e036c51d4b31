/*
 * Groups of cases about overlays: today's map, a sparse one, over a baseline. Each answer is compared, and held against
 * what is promised of it; see promises.h. Besides, where today's map has no record, it must be that of a call on the
 * baseline alone, and where it has all pixels, that of a call on today's map alone.
 */
#ifndef OVERLAY_H
#define OVERLAY_H

#include "maps.h"

void group_overlays_written_out(void);
void group_small_overlays(void);
void group_parts_of_overlays(void);
void group_overlay_lengths(void);
void group_overlay_refusals(void);
void group_damaged_overlays(void);
void group_vast_overlays(void);
void group_large_overlays(void);
void group_joined_overlays(void);
void group_nested_overlays(void);
void group_random_overlays(void);

/* Asks about a window of half of the map's records, in other classes, over the map; and about a part of that. */
void try_overlaid(const map *a, window at);

#endif
