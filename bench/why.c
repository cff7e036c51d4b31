/*
 * What must be answered is taken from what opening and decomposing list, and from the squares of the map's records.
 */
#include "why.h"

#include "beside.h"
#include "summary.h"

#include <stdio.h>
#include <string.h>

#define NO_OPENING UINT32_MAX

static map a;

/* The openings and the maximal blocks of the window; and of each record which opening hands it out, by its number. */
static result opened, decomposed;
static uint32_t handed_by[MOST_RECORDS];

static void list_window(rectangle at, const char *where)
{
    measure(&library, OPEN, &a, at, &opened);
    measure(&library, DECOMPOSE, &a, at, &decomposed);
    memset(handed_by, 0xFF, sizeof handed_by); /* NO_OPENING */
    for (uint32_t k = 0; k < opened.answer.first; k++) {
        const uint32_t *opening = opened.out + 3 * k;
        for (uint32_t i = opening[1]; i < opening[1] + opening[2]; i++) {
            if (handed_by[i] != NO_OPENING)
                wrong("a record is handed out twice", where);
            handed_by[i] = k;
        }
    }
}

/* ---- The questions ---- */

/* The index of a record or the key of a block, and what must be answered. */
typedef struct {
    uint32_t number;
    lutniorad_reason must;
} question;

/* The last record that the last opening hands out: no other is looked for longer. */
static question handed_out(void)
{
    uint32_t k = opened.answer.first - 1, record = opened.out[3 * k + 1] + opened.out[3 * k + 2] - 1;
    question q = {record, {0, 0, LUTNIORAD_HANDED_OUT, record, k}};
    return q;
}

static uint32_t side_of(block b, rectangle at, const char *where)
{
    int side = 1 << b.exponent;
    if (b.row + side <= at.r0)
        return LUTNIORAD_NORTH;
    if (at.r0 + at.h <= b.row)
        return LUTNIORAD_SOUTH;
    if (b.col + side <= at.c0)
        return LUTNIORAD_WEST;
    if (b.col < at.c0 + at.w)
        wrong("a record in the window is not handed out", where);
    return LUTNIORAD_EAST;
}

/* The last record that is not handed out; false where all are. */
static bool outside(rectangle at, question *q, const char *where)
{
    uint32_t i = (uint32_t)a.q;
    while (i > 0 && handed_by[i - 1] != NO_OPENING)
        i--;
    if (i == 0)
        return false;
    q->number = i - 1;
    q->must = (lutniorad_reason){0, 0, side_of(block_of(a.m, a.keys[i - 1], where), at, where), i - 1, 0};
    return true;
}

/* The block of the last opening. */
static question last_opened(void)
{
    uint32_t k = opened.answer.first - 1;
    question q = {opened.out[3 * k], {0, 0, LUTNIORAD_OPENED, 0, k}};
    return q;
}

static uint32_t record_around(block b, const char *where)
{
    int side = 1 << b.exponent;
    for (uint32_t i = 0; i < a.q; i++) {
        block record = block_of(a.m, a.keys[i], where);
        int around = 1 << record.exponent;
        if (within(b.row, side, record.row, around) && within(b.col, side, record.col, around))
            return i;
    }
    wrong("a skipped block lies in no record", where);
    return 0;
}

/* The last maximal block that is not opened; false where all are. They are opened in their order. */
static bool last_skipped(question *q, const char *where)
{
    uint32_t i = decomposed.answer.first, k = opened.answer.first, record;
    for (; i > 0 && k > 0 && decomposed.out[i - 1] == opened.out[3 * (k - 1)]; i--)
        k--;
    if (i == 0)
        return false;
    q->number = decomposed.out[i - 1];
    record = record_around(block_of(a.m, q->number, where), where);
    q->must = (lutniorad_reason){0, 0, LUTNIORAD_SKIPPED, record, handed_by[record]};
    return true;
}

/* What is asked of the window; false where it has nothing of that kind. */
static bool make_question(int operation, rectangle at, question *q, const char *where)
{
    switch (operation) {
    case WHY_HANDED_OUT:
        *q = handed_out();
        return true;
    case WHY_OUTSIDE:
        return outside(at, q, where);
    case WHY_OPENED:
        *q = last_opened();
        return true;
    default: /* WHY_SKIPPED */
        return last_skipped(q, where);
    }
}

/* ---- The calls ---- */

static const program *asked;
static const lutniorad_answer none; /* what they return is no answer */

static lutniorad_answer ask_record(const map *on, rectangle at, uint32_t record, size_t room, result *r)
{
    (void)room;
    r->reason = asked->why_record(on->m, on->keys, on->q, on->classes, on->q, at.r0, at.c0, at.h, at.w, record,
                                  r->border, CELLS);
    return none;
}

static lutniorad_answer ask_block(const map *on, rectangle at, uint32_t key, size_t room, result *r)
{
    (void)room;
    r->reason = asked->why_block(on->m, on->keys, on->q, on->classes, on->q, at.r0, at.c0, at.h, at.w, key, r->border,
                                 CELLS);
    return none;
}

/* An answer leaves the border as opening does, and a refusal nothing at all. */
static int64_t measure_why(const program *p, int operation, rectangle at, question q, const char *where)
{
    static result must, r;
    measure(&library, NOTHING, &a, at, &must);
    must.reason = q.must;
    if (q.must.refusal == 0)
        memcpy(must.border, opened.border, sizeof must.border);
    asked = p;
    measure_direct(operation < WHY_OPENED ? ask_record : ask_block, &a, at, q.number, ROOM, &r);
    hold_answers(p, &r, &must, where);
    return r.instructions;
}

/* What the call takes to check the map: one on an empty window, which is refused by 6 after that. */
static int64_t measure_refused(const program *p, int operation)
{
    static const rectangle empty = {0, 0, 0, 0};
    static const question refused = {0, {LUTNIORAD_BAD_WINDOW, 0, 0, 0, 0}};
    return measure_why(p, operation, empty, refused, "an empty window");
}

/* ---- The table ---- */

static void measure_question(cell *c, rectangle at, question q, const cell *open, const char *where)
{
    c->library = measure_why(&library, c->operation, at, q, where);
    c->plain = measure_why(&plain, c->operation, at, q, where);
    c->before = cell_before(c, where);
    c->opening = open->library;
    c->past_library = c->library - measure_refused(&library, c->operation);
    c->past_plain = c->plain - measure_refused(&plain, c->operation);
    c->past_opening = open->past_library;
}

/* False where the window has nothing of that kind. */
static bool print_question(cell *c, const cell *open)
{
    rectangle at = make_window(a.m, c->window);
    question q;
    char where[LONGEST_CALL];
    name_call(c, where);
    list_window(at, where);
    if (!make_question(c->operation, at, &q, where))
        return false;
    measure_question(c, at, q, open, where);
    printf("| %-22s | %-15s | %-6s |", operation_names[c->operation], map_name(c), window_name(c));
    print_beside_opening(c, 1, 1e9);
    return true;
}

int print_why(cell *cells, int n)
{
    int before = n;
    printf("\nWhy: the last record that the last opening hands out, the last record of the map that is outside, the "
           "block of the last opening, and the last maximal block that is skipped, beside opening the same window, and "
           "beside plain C. There is no row where nothing is outside or skipped. Past check: without what the calls "
           "take to check the map. * marks what is over %.1f times plain C.\n\n"
           "| operation              | map             | window |   library |   opening |   ratio |   plain C | "
           "  ratio | past check |   opening |   ratio |   plain C |   ratio |\n"
           "| :--------------------- | :-------------- | :----- | --------: | --------: | ------: | --------: | "
           "------: | ---------: | --------: | ------: | --------: | ------: |\n",
           MOST_OF_PLAIN);
    for (int operation = WHY_HANDED_OUT; operation <= WHY_SKIPPED; operation++)
        for (int number = 0; number < MAPS; number++) {
            make_map(&a, number);
            for (int window = 0; window < WINDOWS; window++) {
                cell c = begin_cell(operation, &a, number, window);
                if (print_question(&c, find_cell(cells, before, OPEN, number, window)))
                    cells[n++] = c;
            }
        }
    return n;
}
