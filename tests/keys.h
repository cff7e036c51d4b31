/* Groups of cases about the form of a key, which a check reads where a record does not fit to the one before it. */
#ifndef KEYS_H
#define KEYS_H

#include <stdint.h>

/* A number of m digits, from 1 to 4 at random, but for those that are 0: digit k from the small end, where bit k is. */
uint32_t number_without(uint32_t m, uint32_t zeros);

/* The key of the block of an exponent that starts at a place, a multiple of its pixels. */
uint32_t key_at(uint32_t m, uint32_t exponent, uint32_t place);

/* Every number up to beyond 5^m, on small pictures. */
void group_every_number(void);

/* Keys of large pictures, by which of their digits are 0. */
void group_digits(void);

#endif
