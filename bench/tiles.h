/* What a tile costs. */
#ifndef TILES_H
#define TILES_H

#include "cells.h"

/* The cells of the first table again, with tile = m; and those of the lake with tiles of 32 x 32 pixels. */
void print_tiles(const cell *cells, int n);

#endif
