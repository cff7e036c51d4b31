/*
 * Calls about windows: decomposing one, and the questions that are asked about one on a map, which are OPEN, EXIST,
 * REPORT and SELECT, two of them with a tile, all of them on a sparse map, three of them on an overlay, and WHY_RECORD
 * and WHY_BLOCK. OVERLAY_PART, which is about a block, counts as one too. Each call is compared, and what it answers is
 * held against what is promised of it; one with the tile m against the call without a tile; and one on a sparse map
 * that is complete against the call for such.
 */
#ifndef QUESTIONS_H
#define QUESTIONS_H

#include "harness.h"
#include "maps.h"

lutniorad_answer compare_decompose(uint32_t m, window at, size_t n_out);
lutniorad_answer compare_decompose_tiled(uint32_t m, uint32_t tile, window at, size_t n_out);

/* Those on one map. To the last two the answer is a reason. */
enum { QUESTIONS = 12, ANSWERS = QUESTIONS - 2 };
extern const operation *const questions[QUESTIONS];

bool opens(const operation *o); /* with a tile or without, and on a sparse map too */

typedef struct {
    const operation *operation;
    const map *map;
    uint32_t tile; /* for those that take one */
    window at;
    uint32_t about; /* for those that take one: the class, over a background or not, the record or the block */
} question;

/*
 * The baseline of all questions on an overlay from now on: the map of such a question is today's, and lies over this
 * one. The baseline's slices are as long as it is now, or of some other length.
 */
void lay_over(const map *base);
void lay_over_slices(const map *base, size_t n_keys, size_t n_classes);

/* With some tile, and about something: mostly a class or a record of the map, or a maximal block of the window. */
question some_question(const operation *o, const map *a, window at);

/* A background and a class, mostly those of records, and often the same. */
uint32_t some_class_over(const map *a);

lutniorad_answer ask(question q, size_t n_border, size_t n_out);

/* The map's slices may be longer than the map, or shorter. */
lutniorad_answer ask_slices(question q, size_t n_keys, size_t n_classes, size_t n_border, size_t n_out);

/* Cells that are always enough for decomposing a window, and for the answer of a question. */
size_t enough(window at);
size_t enough_tiled(uint32_t tile, window at);
size_t enough_for(question q);

/* Asks on slices that are long enough. The cells that the answer takes are returned: none where it is refused. */
size_t ask_in_full(question q);

/* Asks on answer slices that are empty and too short by one. The cells that the answer takes are returned. */
size_t ask_too_short(question q);

/* Asks about a small window, on slices a little longer than that, with this in each cell of border and answer slice. */
void ask_over(question q, uint16_t old);

/* Asks n questions so, each over the border as it is before the work, on its way and in the end, or elsewhere. */
void ask_over_old_contents(const map *a, window at, const operation *const *asked, size_t n);

/* Asks about windows inside and outside, on a border and an answer slice that are long enough, and on empty ones. */
void ask_inside_and_outside(const operation *o, const map *a);

/* A length that is too short by one, or 0 if it would be less. */
size_t too_short(size_t length);

/* Asks on borders and answer slices that are empty, too short by one, just long enough and longer. */
void ask_with_every_length(question q);

/* Asks on slices that are long enough, on some that may not be, and on the map damaged. */
void ask_at_random(question q);

/* Right windows, empty ones, ones that stick out by one or by far, and ones whose end wraps round in 16 bits. */
enum { CHOSEN_WINDOWS = 34 };
extern const window chosen_windows[CHOSEN_WINDOWS];

enum { CHOSEN_MS = 9 };
extern const uint32_t chosen_ms[CHOSEN_MS];

/* Some lengths of the answer slice, about what the window {0, 1, 3, 3} on the reference map needs. */
typedef struct {
    const operation *operation;
    uint32_t tile;
    uint32_t about;
    size_t n_outs;
    size_t outs[3];
} need;

/* Each reason with each other: m, the slices' lengths, the records, the window, the border and the answer slice. */
void ask_with_reasons_together(window at, const need *needs, size_t n);

/* Report, on slices that are long enough. Where that is answered, the totals are kept. */
lutniorad_answer take_totals(const map *a, window at, uint32_t totals[CLASSES]);

/* Report, and exist about n classes, on slices that are long enough. What they answer must fit together. */
void try_exist(const map *a, window at, const uint8_t *asked, size_t n);

/* The same with select, about each of the classes. */
void try_queries(const map *a, window at, const uint8_t *asked, size_t n);

/* The same on an overlay, of which this is today's map. */
void try_overlay(const map *today, window at, const uint8_t *asked, size_t n);

/* With a tile: decomposing, open, and select about n classes, which must fit what is reported. */
void try_tile(const map *a, uint32_t tile, window at, const uint8_t *asked, size_t n);

/*
 * On a sparse map, over a background: open, report, and exist and select about n classes, which must fit what is
 * reported. Where that is answered, the totals are kept.
 */
lutniorad_answer try_sparse(const map *a, uint32_t tile, window at, uint8_t background, const uint8_t *asked, size_t n,
                            uint32_t totals[CLASSES]);

/* What of that takes the tile, which is open and select, with another one. */
void try_sparse_tile(const map *a, uint32_t tile, window at, uint8_t background, const uint8_t *asked, size_t n,
                     const uint32_t totals[CLASSES]);

/* For the answers written out: the reference map, with another m if it is not 2; at m = 0 the map of one pixel. */
void make_stated_map(map *a, uint32_t m);

/* What the last question left in the border and in the answer slice, where it has them. */
const uint16_t *border_left(void);
const uint32_t *answer_left(void);

/* After a question: each cell of the window's border is this, or 0 stands for a border that was not written. */
void require_border(window at, uint16_t stated);

/* Decomposing, and all questions without a tile or a reason, on slices that are long enough. */
void try_window(const map *a, window at, uint8_t of_class);

#endif
