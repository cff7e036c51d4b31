/* A lake's day over the lake. */
#ifndef OVERLAY_H
#define OVERLAY_H

#include "cells.h"

/*
 * Report, beside the two single reports and plain C; and exist, select and part, beside plain C. What was measured is
 * written behind the first n cells. Returns how many there are then.
 */
int print_overlay(cell *cells, int n);

#endif
