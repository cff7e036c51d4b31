/* Calls of the programs, with the instructions that they take, and the divisions among them. */
#ifndef MEASURE_H
#define MEASURE_H

#include "maps.h"
#include "month.h"
#include "programs.h"

typedef struct {
    const char *name;
    check_function *check;
    decompose_function *decompose;
    open_function *open;
    exist_function *exist;
    report_function *report;
    select_function *select;
    read_function *read;
    write_function *write;
    month_add_function *month_add;
    windows_function *windows;
    why_function *why_record, *why_block;
    salvage_function *salvage;
    overlay_exist_function *overlay_exist;
    overlay_report_function *overlay_report;
    overlay_select_function *overlay_select;
    overlay_part_function *overlay_part;
} program;

/*
 * Fastest adds no map, takes no list of windows, does not say why, salvages no map and lays none over another, and the
 * last two only open.
 */
extern const program library, plain, fastest, growing, every;

/* Of asking why there is one for each kind of answer. */
enum {
    CHECK,
    DECOMPOSE,
    OPEN,
    EXIST,
    REPORT,
    SELECT,
    READ,
    WRITE,
    ADD_FIRST,
    ADD_NEXT,
    MANY,
    WHY_HANDED_OUT,
    WHY_OUTSIDE,
    WHY_OPENED,
    WHY_SKIPPED,
    SALVAGE,
    SALVAGE_BROKEN, /* of a broken lake */
    OVERLAY_EXIST,  /* this one and those behind it: of a lake's day over the lake */
    OVERLAY_REPORT,
    OVERLAY_SELECT,
    OVERLAY_PART,
    OPERATIONS,
    NOTHING
};
extern const char *const operation_names[OPERATIONS];

bool takes_window(int operation);

/* Does it check a map, and then something more? */
bool checks_first(int operation);

/*
 * The widest border, and out cells enough for one pass of opening with tiles of 32 x 32 pixels, and so of any other
 * call that is made.
 */
enum { CELLS = 4096, ROOM = LUTNIORAD_OPEN_TILED_CELLS(5, 4096, 4096), LOG = MOST_RECORDS };

typedef struct {
    int64_t instructions, divisions;
    lutniorad_answer answer;
    lutniorad_reason reason; /* what a call says that returns one, and no answer; so the next */
    lutniorad_part part;
    uint16_t border[CELLS];
    uint32_t out[ROOM]; /* of salvage: the keys and, from LOG on, the log */
    uint64_t table[MONTH_CELLS];
    uint8_t bytes[LUTNIORAD_MOST_FILE_BYTES]; /* a file that was written, or the classes that were read or salvaged */
} result;

/* Opens the file in which the plugin leaves its counts. */
void begin_measuring(const char *counts);

/*
 * One call. Exist asks for a class that is nowhere, so it has to look everywhere; select asks for scum; a map is added
 * to a month of no map, and to one of a map that is all scum; what is read is the file of the map. Counted are the
 * instructions from the first that hands over an argument to the return.
 */
void measure(const program *p, int operation, const map *a, rectangle at, result *r);

/*
 * A call that is made directly, with a number and so many out cells. The number is the tile of a call that has one, how
 * many cells a list of windows has, the record or block about which is asked, or a class or background.
 */
typedef lutniorad_answer direct_call(const map *a, rectangle at, uint32_t number, size_t room, result *r);

/* As measure, of such a call. */
void measure_direct(direct_call *f, const map *a, rectangle at, uint32_t number, size_t room, result *r);

/* The library's check and its two reports, made so. The number is the background of a sparse map. */
direct_call direct_check, direct_report, direct_sparse_report;

bool same_answers(const result *x, const result *y);

/* Ends the run where a program answers or leaves anything else than it must. */
void hold_answers(const program *p, const result *is, const result *must, const char *where);

/* Are the first out cells the keys of a map, and the first bytes its classes? */
bool has_records(const result *r, const map *a);

/* As measure, of a program that must answer as the library did, in every cell. Returns the instructions. */
int64_t measure_same(const program *p, int operation, const map *a, rectangle at, const result *as, const char *where);

/* What a call takes to check the map: one on an empty window, which is refused by 6 after that. */
int64_t measure_check(const program *p, int operation, const map *a);

/* As measure, for whoever wants the answer alone. */
lutniorad_answer call(const program *p, int operation, const map *a, rectangle at, result *r);

/* Ends the run: a bench of a wrong program shows nothing. */
void wrong(const char *why, const char *where);

/* The block of a key. Where there is none, that is wrong. */
block block_of(uint32_t m, uint32_t key, const char *where);

/* Has a record of the map, by its index, a pixel there? */
bool overlaps(const map *a, size_t record, rectangle at, const char *where);

#endif
