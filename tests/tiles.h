/*
 * Groups of cases about tiles: decomposing a window, opening it and select, with no block of a side over 2^tile. Where
 * the cases are those of the other questions, they are in windows.h: lengths, old contents, damaged maps, vast slices.
 */
#ifndef TILES_H
#define TILES_H

void group_tiles_written_out(void);
void group_small_tiles(void);
void group_tile_refusals(void);

/* Where there are more maximal blocks than 4(w + h), and the room for them hangs on the tile. */
void group_many_tiles(void);
void group_random_tiles(void);

#endif
