/*
 * What a day shows over the lake is a complete map as well, which is made besides: what report says of that map, the
 * overlay must answer, and what select lists there, it must list joined. A part is told by the squares of the records.
 */
#include "overlay.h"

#include "beside.h"
#include "summary.h"

#include <inttypes.h>
#include <stdio.h>
#include <string.h>

static map today, baseline, shown;

/* ---- What must be answered ---- */

static result must, reported;

/* Nothing is written, and what is answered is still to be told. */
static void expect_nothing(rectangle at)
{
    measure(&library, NOTHING, &today, at, &must);
}

/* An answer about the window, which spends the border. */
static void expect_spent(rectangle at, uint32_t first)
{
    expect_nothing(at);
    must.answer.first = first;
    memcpy(must.border, reported.border, sizeof must.border);
}

static void expect_exist(rectangle at, uint32_t class, const char *where)
{
    (void)where;
    expect_spent(at, existence(reported.out, (uint8_t)class));
}

static void expect_report(rectangle at, uint32_t number, const char *where)
{
    (void)at, (void)number, (void)where;
    must = reported;
}

/* Are these the keys of the four quarters of one block? Then that has the key `whole`. */
static bool are_quarters(const uint32_t keys[4], uint32_t *whole, const char *where)
{
    uint32_t step = 1;
    for (int i = block_of(shown.m, keys[0], where).exponent; i > 0; i--)
        step *= 5;
    *whole = keys[0] - step;
    return keys[0] / step % 5 == 1 && keys[1] == keys[0] + step && keys[2] == keys[1] + step &&
           keys[3] == keys[2] + step;
}

/* What select lists of a complete map are records: four that make up a block are listed as one. */
static void expect_select(rectangle at, uint32_t number, const char *where)
{
    static result selected;
    uint32_t n = 0, whole;
    (void)number;
    measure(&library, SELECT, &shown, at, &selected);
    for (uint32_t i = 0; i < selected.answer.first; i++) {
        selected.out[n++] = selected.out[i];
        for (; n >= 4 && are_quarters(selected.out + n - 4, &whole, where); n -= 3)
            selected.out[n - 4] = whole;
    }
    expect_spent(at, n);
    memcpy(must.out, selected.out, n * sizeof *must.out);
}

/* The records that overlap the block, which follow one another. */
static lutniorad_part records_at(uint32_t number, const map *a, rectangle at, const char *where)
{
    lutniorad_part part = {0, 0, number, 0, 0};
    for (size_t i = a->q; i > 0; i--)
        if (overlaps(a, i - 1, at, where)) {
            part.first = (uint32_t)i - 1;
            part.count++;
        }
    return part;
}

static void expect_part(rectangle at, uint32_t key, const char *where)
{
    (void)key;
    expect_nothing(at);
    must.part = records_at(LUTNIORAD_TODAY, &today, at, where);
    if (must.part.count == 0)
        must.part = records_at(LUTNIORAD_BASELINE, &baseline, at, where);
}

/* ---- The calls ---- */

static const program *asked;

static lutniorad_answer ask_exist(const map *on, rectangle at, uint32_t class, size_t room, result *r)
{
    (void)room;
    return asked->overlay_exist(on->m, on->keys, on->q, on->classes, on->q, baseline.m, baseline.keys, baseline.q,
                                baseline.classes, baseline.q, at.r0, at.c0, at.h, at.w, (uint8_t)class, r->border,
                                CELLS);
}

static lutniorad_answer ask_report(const map *on, rectangle at, uint32_t number, size_t room, result *r)
{
    (void)number;
    return asked->overlay_report(on->m, on->keys, on->q, on->classes, on->q, baseline.m, baseline.keys, baseline.q,
                                 baseline.classes, baseline.q, at.r0, at.c0, at.h, at.w, r->border, CELLS, r->out,
                                 room);
}

static lutniorad_answer ask_select(const map *on, rectangle at, uint32_t class, size_t room, result *r)
{
    return asked->overlay_select(on->m, on->keys, on->q, on->classes, on->q, baseline.m, baseline.keys, baseline.q,
                                 baseline.classes, baseline.q, at.r0, at.c0, at.h, at.w, (uint8_t)class, r->border,
                                 CELLS, r->out, room);
}

static lutniorad_answer ask_part(const map *on, rectangle at, uint32_t key, size_t room, result *r)
{
    static const lutniorad_answer none;
    (void)at, (void)room;
    r->part = asked->overlay_part(on->m, on->keys, on->q, on->classes, on->q, baseline.m, baseline.keys, baseline.q,
                                  baseline.classes, baseline.q, key);
    return none;
}

/*
 * A call with its number, which is a class or a key; and with another it is refused once the maps are checked, since
 * that is no key or the window is empty.
 */
typedef struct {
    direct_call *ask;
    void (*expect)(rectangle at, uint32_t number, const char *where);
    uint32_t number, refused;
} question;

enum { NO_KEY = 244140625 }; /* 5^12 */

/* The key of a block is that of the only maximal block there. */
static question make_question(int operation, rectangle at)
{
    static const question questions[] = {
        {ask_exist, expect_exist, NO_CLASS, NO_CLASS},
        {ask_report, expect_report, 0, 0},
        {ask_select, expect_select, SCUM, SCUM},
        {ask_part, expect_part, 0, NO_KEY},
    };
    static result decomposed;
    question q = questions[operation - OVERLAY_EXIST];
    if (operation == OVERLAY_PART) {
        call(&library, DECOMPOSE, &baseline, at, &decomposed);
        q.number = decomposed.out[0];
    }
    return q;
}

static int64_t measure_program(const program *p, direct_call *ask, rectangle at, uint32_t number, const char *where)
{
    static result r;
    asked = p;
    measure_direct(ask, &today, at, number, ROOM, &r);
    hold_answers(p, &r, &must, where);
    return r.instructions;
}

static void expect_refused(int operation, rectangle at)
{
    expect_nothing(at);
    if (operation == OVERLAY_PART)
        must.part.refusal = LUTNIORAD_NO_BLOCK;
    else
        must.answer.refusal = LUTNIORAD_BAD_WINDOW;
}

/* Past the check: without what the call takes that is refused after it. */
static void measure_overlay(cell *c, rectangle at, const char *where)
{
    static const rectangle empty = {0, 0, 0, 0};
    question q = make_question(c->operation, at);
    q.expect(at, q.number, where);
    c->library = measure_program(&library, q.ask, at, q.number, where);
    c->plain = measure_program(&plain, q.ask, at, q.number, where);
    c->before = cell_before(c, where);
    expect_refused(c->operation, empty);
    c->past_library = c->library - measure_program(&library, q.ask, empty, q.refused, where);
    c->past_plain = c->plain - measure_program(&plain, q.ask, empty, q.refused, where);
}

/* Of other classes, uncounted: one that is there, mostly, and that of what was not seen. */
static void hold_other_classes(rectangle at, const char *where)
{
    static const uint8_t classes[] = {SCUM, NOT_SEEN};
    for (size_t i = 0; i < sizeof classes; i++) {
        expect_exist(at, classes[i], where);
        measure_program(&library, ask_exist, at, classes[i], where);
        measure_program(&plain, ask_exist, at, classes[i], where);
    }
}

static cell measure_day(int operation, int day, int number)
{
    cell c = begin_cell(operation, &today, day, number);
    bool of_block = operation == OVERLAY_PART;
    rectangle at = of_block ? make_block(baseline.m, number) : make_window(baseline.m, number);
    char where[LONGEST_CALL];
    name_call(&c, where);
    measure(&library, REPORT, &shown, at, &reported);
    measure_overlay(&c, at, where);
    if (operation == OVERLAY_EXIST)
        hold_other_classes(at, where);
    return c;
}

static int64_t measure_single(direct_call *report, const map *a, int window)
{
    static result r;
    rectangle at = make_window(a->m, window);
    measure_direct(report, a, at, CLEAR, ROOM, &r);
    if (r.answer.refusal != 0 || r.answer.first != (uint32_t)at.h * at.w)
        wrong("one of the two reports is refused", window_names[window]);
    return r.instructions;
}

/* ---- The tables ---- */

static void end_row(const cell *c)
{
    print_beside(0, (double)c->plain, (double)c->library, MOST_OF_PLAIN);
    printf(" %10" PRId64 " |", c->past_library);
    print_beside(0, (double)c->past_plain, (double)c->past_library, MOST_OF_PLAIN);
    printf("\n");
    fflush(stdout);
}

/* Returns what was measured. */
static cell print_report(int day, int window)
{
    cell c = measure_day(OVERLAY_REPORT, day, window);
    int64_t of_today = measure_single(direct_sparse_report, &today, window);
    int64_t of_baseline = measure_single(direct_report, &baseline, window);
    c.reports = of_today + of_baseline;
    printf("| %-12s | %-6s | %7zu | %9" PRId64 " | %9" PRId64 " | %9" PRId64 " |", map_name(&c), window_name(&c),
           c.records, c.library, of_today, of_baseline);
    print_beside(0, (double)c.reports, (double)c.library, MOST_OF_REPORTS);
    end_row(&c);
    return c;
}

static cell print_other(int operation, int day, int number)
{
    cell c = measure_day(operation, day, number);
    printf("| %-14s | %-12s | %-7s | %9" PRId64 " |", operation_names[operation], map_name(&c), window_name(&c),
           c.library);
    end_row(&c);
    return c;
}

static int print_reports(cell *cells, int n)
{
    printf("\nReport of a lake's day over the lake, %zu records, beside the two single reports, of the day as a sparse "
           "map and of the lake, and beside plain C. So many records the map of the day has. Past check: without what "
           "the calls take to check both maps. * marks what is over %.1f times the sum of the two, or over %.1f times "
           "plain C.\n\n"
           "| today        | window | records |    report |  of today |   of lake |       sum |   ratio |   plain C | "
           "  ratio | past check |   plain C |   ratio |\n"
           "| :----------- | :----- | ------: | --------: | --------: | --------: | --------: | ------: | --------: | "
           "------: | ---------: | --------: | ------: |\n",
           baseline.q, MOST_OF_REPORTS, MOST_OF_PLAIN);
    for (int day = 0; day < DAYS; day++) {
        make_day(&today, &shown, &baseline, day);
        for (int window = 0; window < WINDOWS; window++)
            cells[n++] = print_report(day, window);
    }
    return n;
}

static int print_others(cell *cells, int n, int operation, int numbers)
{
    for (int day = 0; day < DAYS; day++) {
        make_day(&today, &shown, &baseline, day);
        for (int number = 0; number < numbers; number++)
            cells[n++] = print_other(operation, day, number);
    }
    return n;
}

int print_overlay(cell *cells, int n)
{
    make_map(&baseline, LAKE);
    n = print_reports(cells, n);
    printf("\nThe other calls on the same overlays, beside plain C. A part is that of a block.\n\n"
           "| operation      | today        | window  |   library |   plain C |   ratio | past check |   plain C | "
           "  ratio |\n"
           "| :------------- | :----------- | :------ | --------: | --------: | ------: | ---------: | --------: | "
           "------: |\n");
    n = print_others(cells, n, OVERLAY_EXIST, WINDOWS);
    n = print_others(cells, n, OVERLAY_SELECT, WINDOWS);
    return print_others(cells, n, OVERLAY_PART, BLOCKS);
}
