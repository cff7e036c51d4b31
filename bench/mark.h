/* The system call by which the measured program asks for its counts, which no kernel knows; and these counts. */
#ifndef MARK_H
#define MARK_H

#include <stdint.h>

enum { MARK = 1000001 };

/* Run so far. What counts as a division, count.c says. */
typedef struct {
    int64_t instructions, divisions;
} counted;

#endif
