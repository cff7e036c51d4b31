#include "even.h"

/* The key of a block by its place among those of its level: two bits of that for each digit from 1 to 4. */
static uint32_t key_at(uint32_t place, uint32_t m, uint32_t level)
{
    uint32_t key = 0;
    for (uint32_t i = 0; i < m; i++)
        key = 5 * key + (i < level ? 1 + (place >> 2 * (level - 1 - i)) % 4 : 0);
    return key;
}

void make_even_map(even_map *a, uint32_t m, uint32_t level, uint8_t class)
{
    a->m = m;
    a->q = (size_t)1 << 2 * level;
    for (uint32_t i = 0; i < a->q; i++) {
        a->keys[i] = key_at(i, m, level);
        a->classes[i] = class;
    }
}
