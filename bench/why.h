/* Why a record or a maximal block is on the list of a window's openings, or is not. */
#ifndef WHY_H
#define WHY_H

#include "cells.h"

/*
 * A question for each kind of answer, on each map and window, beside opening and beside plain C. What was measured is
 * written behind the first n cells, among which opening must stand. Returns how many there are then.
 */
int print_why(cell *cells, int n);

#endif
