/*
 * What the cases stand on: calls of the library and of the independent program side by side, with every answer and
 * every byte of every slice compared; random numbers; and the run over the groups of cases.
 *
 * TO ADD AN OPERATION that both programs have, write in harness.c, beside those of the others:
 *   - one pair of function pointers: a member of `program`, and its function in `library` and in `reference`;
 *   - one run_ function, which hands the numbers and slices of a call to that member in the order of its parameters;
 *     of those that return a reason or a part, which have five numbers, `explain` does that, and their rows have NULL;
 *   - one row: the operation's name, its run_ function, what of m, the baseline's m, a tile, a background, a window, a
 *     class, a record and a key it takes, how many slices, and for each its name and the bytes in a cell, 1, 2, 4 or 8;
 *     and the row's place in `operations`.
 * Declare the row below with the others. MOST_SLICES is as many slices as any of them has. A case then fills in a
 * `call` of the operation and hands it to `compare`.
 *
 * TO ADD A GROUP OF CASES, write one function that runs them all, and give it a row in the table that `run_groups` is
 * handed. Its place there decides the numbers of its cases. Each case begins with `begin_case`, is left out where that
 * is false, and makes all that it needs after that: so it can be run alone.
 */
#ifndef HARNESS_H
#define HARNESS_H

#include "lutniorad.h"
#include "reference.h"

#include <stdbool.h>

#define COUNT(array) (sizeof(array) / sizeof *(array))

/* ---- Random numbers ---- */

uint64_t random_number(void);

size_t below(size_t n); /* from 0 to n - 1 */

/* A length that is right, or wrong by up to NEAR. */
enum { NEAR = 3 };
size_t near_length(size_t right);

/* ---- Calls ---- */

typedef struct operation operation;

extern const operation CHECK, DECOMPOSE, OPEN, EXIST, REPORT, SELECT, MONTH_CLEAR, MONTH_ADD, READ, WRITE;
extern const operation DECOMPOSE_TILED, OPEN_TILED, SELECT_TILED, WINDOWS, WHY_RECORD, WHY_BLOCK;
extern const operation SPARSE_CHECK, SPARSE_OPEN, SPARSE_EXIST, SPARSE_REPORT, SPARSE_SELECT, SPARSE_READ, SPARSE_WRITE;
extern const operation SALVAGE;
extern const operation OVERLAY_EXIST, OVERLAY_REPORT, OVERLAY_SELECT, OVERLAY_PART;

enum { MOST_SLICES = 6 };

/*
 * A slice of a call before it is laid out. Garbage will stand in one without content, as most are that the call writes.
 * Of a vast slice, one of about VAST cells, only the first CELLS_OF_VAST need be there.
 */
typedef struct {
    const void *content;
    size_t length;
} given;

enum { CELLS_OF_VAST = TABLE_CELLS + 64 };
#define VAST ((size_t)1 << 32)

/* Of a call that takes none. */
extern const window NO_WINDOW;
enum { NO_TILE = 0, NO_CLASS = 0 };

typedef struct {
    const operation *operation;
    uint32_t m, tile; /* on an overlay, where there is no tile, the latter is the baseline's m */
    window at;
    uint32_t about; /* the class, the index of the record or the key of the block that is asked about; or `over` */
    given slices[MOST_SLICES];
} call;

/* A class that is asked about, and the background over which that is done, as one number; and what of it is which. */
uint32_t over(uint8_t background, uint8_t of_class);
uint8_t background_of(uint32_t about);
uint8_t class_of(uint32_t about); /* also where there is no background */

/*
 * One call, once with each garbage. Of every slice, written by the call or not, all cells and guards are compared. Of a
 * reason or a part all five numbers are; the first four are returned in place of an answer's, and last_reason or
 * last_part has them all.
 */
lutniorad_answer compare(call c);
lutniorad_reason last_reason(void);
lutniorad_part last_part(void);

/* The library's slice after the last call, by its place among the parameters. */
const void *left(size_t i);

/* The last call, which had this answer, by an operation that takes the same slices: it answers and leaves the same. */
void compare_with(const operation *other, lutniorad_answer answer);

/*
 * Between these two, the library's calls run on a stack that was painted before, so that it shows how deep a call went.
 * Each operation must have been called, and the deepest call of each is said. One that goes deeper than MOST_STACK
 * bytes is a mismatch. All bytes count from the top of that stack down to the last one that was written: those of the
 * library, and of the run_ function that calls it, with the parameters it hands over.
 */
enum { MOST_STACK = 3200 };
void watch_stack(void);
void end_watch(void);

/* ---- Cases ---- */

/* Every case begins with this. Its random numbers hang on the seed and its own number alone. False: leave it out. */
bool begin_case(void);

/* What a case asks of the last call beyond the comparison. If it is not so, the program shows the call and ends. */
void require(bool holds, const char *otherwise);
void require_answer(lutniorad_answer got, const char *whose, lutniorad_answer expected);

/* The answer written out in the case. */
void require_stated(lutniorad_answer got, lutniorad_answer stated);
void require_numbers(lutniorad_answer got, uint32_t refusal, uint32_t place, uint32_t first, uint32_t second);
void require_reason(lutniorad_reason stated); /* of the last call */
void require_part(lutniorad_part stated);     /* and of this too */

/* ---- Groups of cases ---- */

typedef struct {
    const char *name;
    void (*run)(void);
    bool random; /* other cases with another seed */
} group;

/* Runs what the arguments of the program ask for, and returns its status. */
int run_groups(const group *groups, size_t n_groups, int argc, char **argv);

#endif
