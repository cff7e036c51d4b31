/*
 * Groups of cases about mending broken maps. Each answer is compared, and then held against what is promised of it: the
 * map is sound, and mended again it is the same; the log says of each record and of each block what became of it; and
 * each pixel has the class of the record that was kept there, or 255.
 */
#ifndef SALVAGE_H
#define SALVAGE_H

#include "maps.h"

void group_salvage_written_out(void);
void group_salvage_of_key_lists(void);
void group_salvage_lengths(void);
void group_salvage_refusals(void);
void group_salvage_of_small_maps(void);
void group_salvage_of_broken_maps(void);
void group_salvage_of_blocks(void);
void group_most_salvaged(void);
void group_vast_salvage(void);
void group_random_salvage(void);

/* Mends the map as it is, and with half of its records. */
void try_salvage_of(const map *a);

#endif
