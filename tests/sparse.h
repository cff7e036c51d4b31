/*
 * Groups of cases about sparse maps, which leave out background: their check, windows on them, and their files. The
 * cases that complete maps have in common with them are in the other groups: there each check and each file is tried
 * by the calls for sparse maps too, and windows are asked about by them as well; see windows.h.
 */
#ifndef SPARSE_H
#define SPARSE_H

#include "maps.h"

void group_sparse_written_out(void);
void group_small_sparse_maps(void);
void group_sparse_lengths(void);
void group_sparse_refusals(void);
void group_damaged_sparse_maps(void);
void group_sparse_files(void);
void group_vast_sparse(void);
void group_large_sparse_maps(void);
void group_random_sparse_maps(void);
void group_single_pixels(void);

/* Asks about a window of the map with half of its records, on slices that are long enough. */
void try_thinned(const map *a, window at);

#endif
