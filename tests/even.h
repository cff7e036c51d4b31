/* A map whose blocks are all of one size. It is made without a call of the C library. */
#ifndef EVEN_H
#define EVEN_H

#include "lutniorad.h"

typedef struct {
    uint32_t m;
    size_t q;
    uint32_t keys[LUTNIORAD_MOST_RECORDS + 1]; /* one more than a map may have */
    uint8_t classes[LUTNIORAD_MOST_RECORDS + 1];
} even_map;

/* The blocks of a level, at most 8, all of this class. */
void make_even_map(even_map *a, uint32_t m, uint32_t level, uint8_t class);

#endif
