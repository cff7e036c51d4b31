/* The maps that are measured, broken ones and those of a day among them, and the windows and blocks on them. */
#ifndef BENCH_MAPS_H
#define BENCH_MAPS_H

#include <stdbool.h>
#include <stddef.h>
#include <stdint.h>

enum { MOST_RECORDS = 65536, CLEAR = 1, SCUM = 2, LAND = 3, NO_CLASS = 200 /* on no map */ };

typedef struct {
    uint32_t m;
    size_t q;
    uint32_t keys[MOST_RECORDS];
    uint8_t classes[MOST_RECORDS];
} map;

enum { PIXELS, SQUARES, LAKE, LARGE, ONE, STRIP, MAPS };
extern const char *const map_names[MAPS];

/* One of the maps, by its number. */
void make_map(map *a, int number);

/* A map whose north-west corner, of side 2^exponent, is cut into blocks of 16 x 16, and the rest as few as can be. */
void make_corner(map *a, uint32_t exponent);

/* What is left of a map without the records of a class. */
void leave_out(map *left, const map *complete, uint8_t class);

/* Each tenth record is gone, has a malformed key, or stands there twice; those of clear water are gone; or all are. */
enum { MISSING, GARBLED, TWICE, NO_CLEAR, EMPTY, FAULTS };
extern const char *const fault_names[FAULTS];

/* By its index, from 0. */
bool is_tenth(size_t record);

/* The lake with a fault. */
void break_map(map *broken, const map *sound, int fault);

/*
 * Of a lake's day, over the lake: no record; what has changed since the scum has drifted; each tenth record of the
 * lake, or each second, in which clear water and scum have changed places and land lies under clouds; and the whole
 * lake since the scum has drifted.
 */
enum { NO_RECORD, DRIFTED, TENTH, SECOND, COMPLETE, DAYS };
extern const char *const day_names[DAYS];

/* The map of that day, and a complete map of what it shows over the lake. */
void make_day(map *today, map *shown, const map *baseline, int number);

typedef struct {
    uint16_t r0, c0, h, w;
} rectangle;

enum { TINY, MEDIUM, LONG, WHOLE, WINDOWS, MIXED = WINDOWS /* of many, some of each */, BATCHES };
extern const char *const window_names[BATCHES];

rectangle make_window(uint32_t m, int number);

/* Windows that are blocks: a pixel, 32 x 32 pixels, a quarter of the picture, and all of it. */
enum { A_PIXEL, A_TILE, A_QUARTER, A_PICTURE, BLOCKS };
extern const char *const block_names[BLOCKS];

rectangle make_block(uint32_t m, int number);

/* A block, by its north-west corner. */
typedef struct {
    int row, col, exponent;
} block;

/* A number below n. From the same state on there come the same numbers. */
uint32_t below(uint64_t *state, uint32_t n);

/* A window of h rows and w columns, anywhere. */
rectangle anywhere(uint32_t m, uint32_t h, uint32_t w, uint64_t *state);

/* Of rows or of columns: do the `side` from `from` on lie apart from the `count` from `start` on, or within them? */
bool apart(int from, int side, int start, int count);
bool within(int from, int side, int start, int count);

#endif
