/* Salvage of maps that are sound, and of broken ones. */
#ifndef SALVAGE_H
#define SALVAGE_H

#include "cells.h"

/*
 * Sound maps, beside their check, a copy and plain C; and the lake with each fault, beside plain C. What was measured
 * is written behind the first n cells. Returns how many there are then.
 */
int print_salvage(cell *cells, int n);

#endif
