/*
 * What is promised of windows, asked of the library's own answers: each of these looks at what the last call left, and
 * not at what the independent program made of it. Where a promise is not kept, the program shows the call and ends.
 *
 * The blocks have a side up to 2^tile. Where a call has no tile it is m: then wh/4^tile is 0, but of the whole picture,
 * which is a single block.
 */
#ifndef PROMISES_H
#define PROMISES_H

#include "maps.h"
#include "reference.h"

#include <stdbool.h>

/*
 * n keys, from decomposing a window: fewer than 4(w + h) + wh/4^tile maximal blocks, and each pixel of the window in
 * just one; with the tile 0, the pixels row by row.
 */
void require_decomposed(uint32_t m, uint32_t tile, window at, const uint32_t *keys, size_t n);

/*
 * The openings of a window on a sound map: fewer than 4(w + h) + wh/4^tile of them, each at a maximal block and with a
 * record of its own; each record with a pixel in the window handed out once, and no other; as many as the answer says;
 * and no fewer blocks bring them all. On a sparse map that is so of the openings with records; and just the maximal
 * blocks without a pixel of a record are empty openings, which have 0 for the first record and 0 records.
 */
void require_opened(const map *a, bool sparse, uint32_t tile, window at, lutniorad_answer answer,
                    const uint32_t *openings);

/*
 * What is said of a record, or of a block, is so of the lists that the library itself gives for the window on this map,
 * of its openings and of its maximal blocks: just the opening of that number hands the record out, or none does; just
 * that opening is at the block, or none is, the block lies in the record, and the opening is at a block before it. A
 * record is refused for itself only where the map has none of its index, and a key just where it is not in the list.
 */
void require_said_of_record(const map *a, window at, uint32_t record, lutniorad_reason reason);
void require_said_of_block(const map *a, window at, uint32_t key, lutniorad_reason reason);

/* The 256 totals of a window add up to its pixels, and to what the answer says. */
void require_reported(window at, lutniorad_answer answer, const uint32_t *totals);

/*
 * n keys, selected from a window on a sound map: each of a block inside the window that is no larger than a tile, and
 * fewer than Q + 4(w + h) + wh/4^tile.
 */
void require_selected(const map *a, uint32_t tile, window at, const uint32_t *keys, size_t n);

/*
 * n keys, selected from a window on a sparse map by a class over a background: each of a block inside the window that
 * is no larger than a tile; no pixel in two of them, and in one just the pixels of the class. In small windows: as many
 * as there are, in each maximal block, records with a pixel there that have the class, and for the background blocks
 * in each gap if they are the fewest.
 */
void require_sparse_selected(const map *a, uint32_t tile, window at, uint32_t about, const uint32_t *keys, size_t n);

/*
 * n keys, selected by a class from a window on an overlay: each of a block inside the window, no pixel in two of them,
 * and in one just the pixels of the class; in the order of the maximal blocks, and in each of these rising; and no four
 * of them are one block that lies in the window, so that there are no fewer.
 */
void require_overlay_selected(const map *today, const map *base, window at, uint8_t of_class, const uint32_t *keys,
                              size_t n);

/*
 * A part of an overlay: at least one record of one of the maps, each of which overlaps the block of the key, and none
 * beside them does. Where it is of the baseline, none of today's overlaps the block.
 */
void require_part_of_either(const map *today, const map *base, uint32_t key, lutniorad_part part);

/*
 * What exist answered about a class of a window, against the totals that were reported of the same window: yes exactly
 * when that of the class is not 0; that it cannot tell exactly when that is 0 and that of 255 is not; no exactly when
 * both are 0. Of 255 itself it can always tell.
 */
void require_agreement(uint32_t existence, uint8_t of_class, const uint32_t *totals);

/* The blocks of n keys, selected by a class, have as many pixels as were reported of it. */
void require_as_reported(uint32_t m, const uint32_t *keys, size_t n, uint32_t total);

#endif
