/* What the table says in short. */
#ifndef SUMMARY_H
#define SUMMARY_H

#include "cells.h"

/* At most so many times the plain C, in the median of each operation; and of what a cell took before, unless it was
 * under so many instructions. */
#define MOST_OF_PLAIN 1.3
#define MOST_OF_BEFORE 1.02
enum { FEW = 1000 };

/* Many windows in one call: at most so many times what opening them one by one takes, past the check, on every map. */
#define MOST_OF_SINGLES 1.05

/* Salvage of a sound map: at most so many times its check, unless that takes fewer than FEW instructions. */
#define MOST_OF_CHECK 3.0

/* Report of a lake's day over the lake: at most so many times the two single reports together, in every cell. */
#define MOST_OF_REPORTS 1.5

/* The ratios of each operation. */
void print_summaries(const cell *cells, int n);

/* Which cells take more than before. */
void print_against_before(const cell *cells, int n);

/* The totals that are wanted, and whether they are met. */
void print_wanted(const cell *cells, int n);

#endif
