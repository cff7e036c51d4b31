/*
 * Many windows in one call, which says how many openings, records and pixels each has. So they are opened one by one
 * too, and what these calls answer and leave is what the one call must.
 */
#include "many.h"

#include "beside.h"
#include "summary.h"

#include <stdio.h>
#include <string.h>

enum { N = LUTNIORAD_MOST_WINDOWS, CELLS_OF_WINDOW = 4, CELLS_OF_ANSWER = 5 };

static map a;
static uint16_t windows[N * CELLS_OF_WINDOW];
static result untouched; /* what a call leaves that writes nothing */

/* ---- The windows ---- */

/* One as in the first table, but anywhere; a medium one has sides from a 16th to a quarter of the picture's. */
static rectangle any_window(int kind, uint64_t *state)
{
    rectangle at = make_window(a.m, kind);
    uint32_t h = at.h, w = at.w, shortest = (uint32_t)1 << a.m >> 4;
    if (kind == MEDIUM) {
        h = shortest + below(state, 3 * shortest + 1);
        w = shortest + below(state, 3 * shortest + 1);
    }
    return anywhere(a.m, h, w, state);
}

static void make_windows(int kind)
{
    uint64_t state = 1;
    for (int i = 0; i < N; i++) {
        rectangle at = any_window(kind == MIXED ? i % WINDOWS : kind, &state);
        const uint16_t cells[CELLS_OF_WINDOW] = {at.r0, at.c0, at.h, at.w};
        memcpy(windows + i * CELLS_OF_WINDOW, cells, sizeof cells);
    }
}

static rectangle window_at(int i)
{
    const uint16_t *cells = windows + i * CELLS_OF_WINDOW;
    rectangle at = {cells[0], cells[1], cells[2], cells[3]};
    return at;
}

/* ---- In one call ---- */

static const program *asked;

static lutniorad_answer ask(const map *on, rectangle at, uint32_t cells, size_t room, result *r)
{
    (void)at;
    return asked->windows(on->m, on->keys, on->q, on->classes, on->q, windows, cells, r->border, CELLS, r->out, room);
}

/* So many cells of the list. What the call answers and leaves must be this. */
static int64_t measure_list(const program *p, uint32_t cells, const result *must, const char *where)
{
    static result r;
    asked = p;
    measure_direct(ask, &a, make_window(a.m, TINY), cells, ROOM, &r);
    hold_answers(p, &r, must, where);
    return r.instructions;
}

/* What the call takes to check the map: one with a list of one cell, which is refused by 25 after that. */
static int64_t measure_refused(const program *p)
{
    static result must;
    must = untouched;
    must.answer = (lutniorad_answer){LUTNIORAD_BAD_WINDOW_LIST, 0, 0, 0};
    return measure_list(p, 1, &must, "a list of one cell");
}

/* ---- One by one ---- */

/* The cells of window i, and those of the border that opening it has written. */
static void take_over(const result *opened, int i, result *must)
{
    rectangle at = window_at(i);
    const uint32_t cells[CELLS_OF_ANSWER] = {0, 0, opened->answer.first, opened->answer.second, (uint32_t)at.h * at.w};
    memcpy(must->out + i * CELLS_OF_ANSWER, cells, sizeof cells);
    for (int col = 0; col < CELLS; col++)
        if (opened->border[col] != untouched.border[col])
            must->border[col] = opened->border[col];
}

/* Opens all windows. Returns the instructions, and what many windows must answer and leave. */
static int64_t measure_singles(result *must, const char *where)
{
    static result opened;
    int64_t sum = 0;
    *must = untouched;
    must->answer = (lutniorad_answer){0, 0, N, 0};
    for (int i = 0; i < N; i++) {
        measure(&library, OPEN, &a, window_at(i), &opened);
        if (opened.answer.refusal != 0)
            wrong("one of many windows is refused", where);
        take_over(&opened, i, must);
        sum += opened.instructions;
    }
    return sum;
}

/* ---- The table ---- */

/* Returns what was measured. */
static cell print_batch(int number, int kind)
{
    static result must;
    cell c = begin_cell(MANY, &a, number, kind);
    char name[LONGEST_NAME];
    name_cell(&c, name);
    make_windows(kind);
    c.opening = measure_singles(&must, name);
    c.library = measure_list(&library, N * CELLS_OF_WINDOW, &must, name);
    c.plain = measure_list(&plain, N * CELLS_OF_WINDOW, &must, name);
    c.before = cell_before(&c, name);
    c.past_library = c.library - measure_refused(&library);
    c.past_plain = c.plain - measure_refused(&plain);
    c.past_opening = c.opening - N * measure_check(&library, OPEN, &a);
    printf("| %-11s | %-15s |", window_name(&c), map_name(&c));
    print_beside_opening(&c, N, MOST_OF_SINGLES);
    return c;
}

int print_many(cell *cells, int n)
{
    printf("\nMany windows: %d in one call, which checks the map once, beside as many single calls of opening, and "
           "beside plain C. Past check: for each window, without what the calls take to check the map. * marks what is "
           "over %.2f times opening, past the check, or over %.1f times plain C.\n\n"
           "| %d windows | map             |   library |   opening |   ratio |   plain C |   ratio | past check |   "
           "opening |   ratio |   plain C |   ratio |\n"
           "| :---------- | :-------------- | --------: | --------: | ------: | --------: | ------: | ---------: | "
           "--------: | ------: | --------: | ------: |\n",
           N, MOST_OF_SINGLES, MOST_OF_PLAIN, N);
    for (int number = 0; number < MAPS; number++) {
        make_map(&a, number);
        measure(&library, NOTHING, &a, make_window(a.m, TINY), &untouched);
        for (int kind = 0; kind < BATCHES; kind++)
            if (kind != WHOLE || number == LAKE) /* elsewhere they take long, and some are among the mixed ones */
                cells[n++] = print_batch(number, kind);
    }
    return n;
}
