/*
 * Groups of cases about reasons: why a record, or a maximal block, is in the list of openings or is not. Where the
 * cases are those of the other questions, they are in windows.h: lengths, old contents, damaged maps.
 */
#ifndef WHY_H
#define WHY_H

#include "maps.h"

void group_reasons_written_out(void);
void group_small_reasons(void);
void group_reason_refusals(void);

/* Windows of many blocks, where the reasons go by the block's place among them; and the longest maps. */
void group_large_reasons(void);
void group_random_reasons(void);

/* Asks about some records and some blocks, on slices that are long enough. */
void try_reasons(const map *a, window at);

#endif
