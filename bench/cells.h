/* A cell of the table: one operation on one map and window. */
#ifndef CELLS_H
#define CELLS_H

#include "measure.h"

enum { MOST_CELLS = OPERATIONS * MAPS * BATCHES };

/*
 * Instructions. Those past the check are 0 where a call checks no map or does nothing else, and of adding a map to a
 * month. Of that, of many windows, of asking why, of salvage and of overlays those of fastest C are 0, and those before
 * too unless the file has them. Opening: what opening the same window takes, or many windows one by one; 0 but of many
 * windows and of asking why. Check: what the check of the same map takes; 0 but of salvage of a sound map. Reports:
 * what the two single reports take together; 0 but of report of an overlay. Salvage takes no window: of a broken lake,
 * there is its fault. Of an overlay, the map is the number of the day; and of a part, the window that of the block.
 */
typedef struct {
    int operation, map, window;
    size_t records;
    int64_t library, plain, fastest, before, opening, check, reports;
    int64_t past_library, past_plain, past_opening;
} cell;

/* Reads what each cell took before: a file with a line "operation | map | window | instructions" for each. In lines of
 * the same form it has what reading a key took. */
void read_before(const char *file);

/* What such a line says; -1 where there is none. */
int64_t told_before(const char *operation, const char *on, const char *window);

/* The same of a cell; 0 where it is not told, as it need be of the operations before ADD_FIRST alone. */
int64_t cell_before(const cell *c, const char *where);

/* What exist must answer where report has these totals. */
uint32_t existence(const uint32_t totals[LUTNIORAD_CLASSES], uint8_t class);

/* One of which nothing is measured yet. The map is that of the number. */
cell begin_cell(int operation, const map *a, int map_number, int window_number);

/* One that is measured. */
cell measure_cell(int operation, const map *a, int map_number, int window_number);

/* One that was measured. */
const cell *find_cell(const cell *cells, int n, int operation, int map_number, int window_number);

/* Decomposing takes no map: of it, there is m. Some calls take no window: of a broken lake, there is its fault, and of
 * a part its block. */
const char *map_name(const cell *c);
const char *window_name(const cell *c);

enum { LONGEST_NAME = 60, LONGEST_CALL = 100 };
/* Map and window. */
void name_cell(const cell *c, char name[LONGEST_NAME]);
/* Operation, map and window. */
void name_call(const cell *c, char name[LONGEST_CALL]);

#endif
