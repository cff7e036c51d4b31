/* The rows of tables in which the library stands beside others: opening, a check, plain C. */
#ifndef BESIDE_H
#define BESIDE_H

#include "cells.h"

/* What another takes, and how many times that the library takes; with a mark where that is over `most`. */
void print_beside(int decimals, double other, double ours, double most);

/*
 * Ends a row: what the library takes, opening and plain C; then the same past the check, for each of so many windows.
 * Behind those of opening and of plain C: how many times that the library takes, with a mark where that is over the aim
 * for plain C or, past the check, over `most` times opening.
 */
void print_beside_opening(const cell *c, int windows, double most);

#endif
