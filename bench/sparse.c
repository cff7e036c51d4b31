/*
 * The calls for sparse maps, on the lake without the records of a class and on the complete lake, beside the calls for
 * complete maps. What they answer is held against those, and against the squares of the records.
 */
#include "sparse.h"

#include "measure.h"

#include <inttypes.h>
#include <stdio.h>

enum { NONE = NO_CLASS }; /* left out: no record has that class */

static map complete, left;
static result of_complete, of_left;
static uint8_t background;

static double ratio(int64_t x, int64_t y)
{
    return (double)x / (double)y;
}

static const char *class_name(uint8_t class)
{
    return class == NONE ? "nothing" : class == CLEAR ? "clear" : class == SCUM ? "scum" : "land";
}

/* ---- The calls: the number is the class of select or the background of report, and else counts for nothing ---- */

static lutniorad_answer sparse_check(const map *on, rectangle at, uint32_t number, size_t room, result *r)
{
    (void)at, (void)number, (void)room, (void)r;
    return lutniorad_sparse_check(on->m, on->keys, on->q, on->classes, on->q);
}

static lutniorad_answer open(const map *on, rectangle at, uint32_t number, size_t room, result *r)
{
    (void)number;
    return lutniorad_open(on->m, on->keys, on->q, on->classes, on->q, at.r0, at.c0, at.h, at.w, r->border, CELLS,
                          r->out, room);
}

static lutniorad_answer sparse_open(const map *on, rectangle at, uint32_t number, size_t room, result *r)
{
    (void)number;
    return lutniorad_sparse_open(on->m, on->m, on->keys, on->q, on->classes, on->q, at.r0, at.c0, at.h, at.w, r->border,
                                 CELLS, r->out, room);
}

static lutniorad_answer exist(const map *on, rectangle at, uint32_t number, size_t room, result *r)
{
    (void)number, (void)room;
    return lutniorad_exist(on->m, on->keys, on->q, on->classes, on->q, at.r0, at.c0, at.h, at.w, NO_CLASS + 1,
                           r->border, CELLS);
}

static lutniorad_answer sparse_exist(const map *on, rectangle at, uint32_t number, size_t room, result *r)
{
    (void)number, (void)room;
    return lutniorad_sparse_exist(on->m, background, on->keys, on->q, on->classes, on->q, at.r0, at.c0, at.h, at.w,
                                  NO_CLASS + 1, r->border, CELLS);
}

static lutniorad_answer select(const map *on, rectangle at, uint32_t number, size_t room, result *r)
{
    return lutniorad_select(on->m, on->keys, on->q, on->classes, on->q, at.r0, at.c0, at.h, at.w, (uint8_t)number,
                            r->border, CELLS, r->out, room);
}

static lutniorad_answer sparse_select(const map *on, rectangle at, uint32_t number, size_t room, result *r)
{
    return lutniorad_sparse_select(on->m, on->m, background, on->keys, on->q, on->classes, on->q, at.r0, at.c0, at.h,
                                   at.w, (uint8_t)number, r->border, CELLS, r->out, room);
}

/* ---- What they must answer ---- */

/* The records that overlap the window. */
static uint32_t count_records(rectangle at, const char *where)
{
    uint32_t n = 0;
    for (size_t i = 0; i < left.q; i++)
        n += overlaps(&left, i, at, where);
    return n;
}

/* The pixels of the blocks that were selected. */
static uint64_t count_pixels(const result *r, const char *where)
{
    uint64_t pixels = 0;
    for (uint32_t i = 0; i < r->answer.first; i++)
        pixels += (uint64_t)1 << 2 * block_of(left.m, r->out[i], where).exponent;
    return pixels;
}

static void hold_checked(rectangle at, const char *where)
{
    (void)at;
    if (of_left.answer.refusal != 0 || of_left.answer.first != left.q)
        wrong("a sparse map is refused", where);
}

/* Where nothing was left out, all is as on the complete map. */
static void hold_same(rectangle at, const char *where)
{
    (void)at;
    if (!same_answers(&of_left, &of_complete))
        wrong("the sparse map gives another answer than the complete one", where);
}

static void hold_opened(rectangle at, const char *where)
{
    if (background == NONE)
        hold_same(at, where);
    if (of_left.answer.refusal != 0 || of_left.answer.second != count_records(at, where))
        wrong("other records are handed out than overlap the window", where);
}

static void hold_background(rectangle at, const char *where)
{
    if (background == NONE)
        hold_same(at, where);
    if (of_left.answer.refusal != 0 || of_left.answer.first > of_complete.answer.first ||
        count_pixels(&of_left, where) != count_pixels(&of_complete, where))
        wrong("the background is listed by other pixels, or by more blocks", where);
}

/* ---- The tables ---- */

typedef struct {
    const char *name;
    bool takes_window, of_background; /* that is the number of the call, or else scum is */
    direct_call *complete, *sparse;
    void (*hold)(rectangle at, const char *where);
} pair;

static const pair pairs[] = {
    {"check", false, false, direct_check, sparse_check, hold_checked},
    {"open", true, false, open, sparse_open, hold_opened},
    {"exist", true, false, exist, sparse_exist, hold_same},
    {"report", true, true, direct_report, direct_sparse_report, hold_same},
    {"select, scum", true, false, select, sparse_select, hold_same},
    {"select, background", true, true, select, sparse_select, hold_background},
};

static void make_sparse(uint8_t class)
{
    background = class;
    leave_out(&left, &complete, class);
}

static void print_files(uint8_t class)
{
    const rectangle all = {0, 0, 4096, 4096};
    const size_t bytes = LUTNIORAD_FILE_BYTES(complete.q), fewer = LUTNIORAD_FILE_BYTES(left.q);
    const uint32_t pixels = call(&library, REPORT, &complete, all, &of_complete).first;
    printf("| %-8s | %11.1f %% | %7zu | %10zu | %6.3f |\n", class_name(class),
           100 * ratio(of_complete.out[class], pixels), left.q, fewer, ratio((int64_t)fewer, (int64_t)bytes));
}

/* What a call takes to check the map: one on an empty window, which is refused by 6 after that. */
static int64_t measure_refused(direct_call *f, const map *on, const char *where)
{
    static const rectangle empty = {0, 0, 0, 0};
    static result refused;
    measure_direct(f, on, empty, SCUM, ROOM, &refused);
    if (refused.answer.refusal != LUTNIORAD_BAD_WINDOW)
        wrong("an empty window is not refused by 6", where);
    return refused.instructions;
}

static void print_numbers(int width, int64_t of_complete_map, int64_t of_sparse_map)
{
    printf(" %*" PRId64 " | %8" PRId64 " | %6.3f |", width, of_complete_map, of_sparse_map,
           ratio(of_sparse_map, of_complete_map));
}

static void print_pair(const pair *p, int window)
{
    const rectangle at = make_window(complete.m, window);
    const uint32_t class = p->of_background ? background : SCUM;
    char where[80];
    snprintf(where, sizeof where, "%s, %s left out, %s", p->name, class_name(background), window_names[window]);
    measure_direct(p->complete, &complete, at, class, ROOM, &of_complete);
    measure_direct(p->sparse, &left, at, class, ROOM, &of_left);
    p->hold(at, where);
    printf("| %-8s | %-18s | %-6s |", class_name(background), p->name, p->takes_window ? window_names[window] : "");
    print_numbers(8, of_complete.instructions, of_left.instructions);
    if (p->takes_window)
        print_numbers(10, of_complete.instructions - measure_refused(p->complete, &complete, where),
                      of_left.instructions - measure_refused(p->sparse, &left, where));
    else
        printf(" %10s | %8s | %6s |", "", "", "");
    printf("\n");
    fflush(stdout);
}

static void print_pairs(void)
{
    for (size_t i = 0; i < sizeof pairs / sizeof *pairs; i++)
        for (int window = 0; window < (pairs[i].takes_window ? WINDOWS : 1); window++)
            print_pair(&pairs[i], window);
}

void print_sparse(void)
{
    static const uint8_t classes[] = {NONE, CLEAR, LAND};
    enum { CLASSES = sizeof classes / sizeof *classes };
    make_map(&complete, LAKE);
    printf("\nThe lake without the records of a class: how much of the picture that is, records and bytes of the file "
           "that are left, and how many times those of the complete lake the bytes are.\n\n"
           "| left out | of the pixels | records | file bytes |  ratio |\n"
           "| :------- | ------------: | ------: | ---------: | -----: |\n");
    for (int i = 0; i < CLASSES; i++) {
        make_sparse(classes[i]);
        print_files(classes[i]);
    }
    printf(
        "\nThe calls for sparse maps on what is left, beside those for complete maps on the complete lake; and the "
        "same past the check. The background is the class that was left out.\n\n"
        "| left out | call               | window | complete |   sparse |  ratio | past check |   sparse |  ratio |\n"
        "| :------- | :----------------- | :----- | -------: | -------: | -----: | ---------: | -------: | -----: |\n");
    for (int i = 0; i < CLASSES; i++) {
        make_sparse(classes[i]);
        print_pairs();
    }
}
