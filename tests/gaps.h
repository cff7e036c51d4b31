/*
 * Sparse maps for the cases: complete ones of which records are left out, small ones by number, and the same with their
 * gaps filled. And what was met of all that a window on one can have.
 */
#ifndef GAPS_H
#define GAPS_H

#include "maps.h"

/* Of `of` records about `keep` are kept. */
void thin_out(map *a, size_t keep, size_t of);

/* As it is meant: the records of the background are left out. */
void leave_out(map *a, uint8_t background);

/* The records that lie in a window are kept. */
void keep_inside(map *a, window at);

/* What becomes of a map that has records. */
enum { NO_RECORDS, ONE_RECORD, NEARLY_EMPTY, HALF, NEARLY_FULL, COMPLETE, DENSITIES };

void make_sparse(map *a, size_t density);

/*
 * Makes all sparse maps of m = 0 and m = 1, and so many of m = 2, in few classes, and calls `run` after each. That is
 * one case. Returns whether all were run.
 */
bool for_small_sparse_maps(map *a, size_t of_2, void (*run)(void));

/* The same of m = 0 and m = 1 alone, painted in these classes in every way. `run` must leave the keys as they are. */
bool for_painted_sparse_maps(map *a, const uint8_t *classes, size_t n_classes, void (*run)(void));

/* The ways to paint q records in n classes, by number. */
size_t n_paintings(size_t q, size_t n_classes);
void paint_by_number(map *a, const uint8_t *classes, size_t n_classes, size_t number);

/* The same map with blocks of the background in its gaps, the largest there are. False where they are too many. */
bool fill_gaps(const map *a, uint8_t background, map *filled);

/* ---- What was met ---- */

void forget_met(void);

/* Where all cases of a group were run, all that a window can have was met. */
void require_met(bool all_cases);

/* The same of a group whose maps are one pixel each, and of all that a window on such a map can have. */
void require_met_on_pixels(bool all_cases);

/* Counts what a window on a sound sparse map has, by the independent program. It is not large. */
void count_window(const map *a, uint32_t tile, window at, uint8_t background);

/* Counts what exist can tell there of the background's class, by the window's totals. */
void count_existence(const map *a, bool has_gaps, uint8_t background, const uint32_t totals[CLASSES]);

#endif
