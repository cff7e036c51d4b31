/*
 * Groups of cases about windows: decomposing them, opening them on maps, and the queries, the calls with a tile, those
 * for sparse maps and those for a reason wherever the cases are the same. Those about classes are in queries.h, those
 * about tiles in tiles.h, those about reasons in why.h, and those about maps with gaps in sparse.h.
 */
#ifndef WINDOWS_H
#define WINDOWS_H

void group_windows_written_out(void);
void group_small_windows(void);
void group_window_refusals(void);
void group_window_lengths(void);
void group_old_contents(void);
void group_windows_on_damaged_maps(void);
void group_vast_windows(void);
void group_large_windows(void);
void group_random_windows(void);

/* Windows as large as the largest picture, or nearly so, decomposed. bench/ counts how the work grows with them. */
void group_largest_windows(void);

/* Calls of all operations, on large maps and windows, while the stack is watched. */
void group_stack(void);

#endif
