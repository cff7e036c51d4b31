/*
 * Groups of cases about the reports of windows that belong together. Of two windows whose union is a rectangle they add
 * up, cell by cell, to those of the union and of what both have; of two whose union is none they do not add up to those
 * of the hull, from the least of the edges to the greatest, and of what both have. Of windows that part a window they
 * add up to its own.
 */
#ifndef PAIRS_H
#define PAIRS_H

/* All windows of small pictures, and what two of them make together found by their pixels. */
void group_small_pairs(void);
void group_small_parts(void);

void group_random_pairs(void);
void group_random_parts(void);

#endif
