/* Many windows in one call, which checks the map once. */
#ifndef MANY_H
#define MANY_H

#include "cells.h"

/*
 * 256 windows in one call, beside as many calls of opening and beside plain C, on each map. What was measured is
 * written behind the first n cells. Returns how many there are then.
 */
int print_many(cell *cells, int n);

#endif
