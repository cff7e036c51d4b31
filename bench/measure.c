#define _DEFAULT_SOURCE /* for syscall */

#include "measure.h"

#include "mark.h"

#include <fcntl.h>
#include <stdbool.h>
#include <stdio.h>
#include <stdlib.h>
#include <string.h>
#include <unistd.h>

const program library = {
    "library",
    lutniorad_check,
    lutniorad_decompose,
    lutniorad_open,
    lutniorad_exist,
    lutniorad_report,
    lutniorad_select,
    lutniorad_read,
    lutniorad_write,
    lutniorad_month_add,
    lutniorad_windows,
    lutniorad_why_record,
    lutniorad_why_block,
    lutniorad_salvage,
    lutniorad_overlay_exist,
    lutniorad_overlay_report,
    lutniorad_overlay_select,
    lutniorad_overlay_part,
};
const program plain = {
    "plain C",       plain_check,   plain_decompose,     plain_open,           plain_exist,          plain_report,
    plain_select,    plain_read,    plain_write,         plain_month_add,      plain_windows,        plain_why_record,
    plain_why_block, plain_salvage, plain_overlay_exist, plain_overlay_report, plain_overlay_select, plain_overlay_part,
};
const program fastest = {
    .name = "fastest C",
    .check = fastest_check,
    .decompose = fastest_decompose,
    .open = fastest_open,
    .exist = fastest_exist,
    .report = fastest_report,
    .select = fastest_select,
    .read = fastest_read,
    .write = fastest_write,
};
const program growing = {.name = "growing list", .open = growing_open};
const program every = {.name = "every block", .open = every_open};

const char *const operation_names[OPERATIONS] = {
    "check",
    "decompose",
    "open",
    "exist",
    "report",
    "select",
    "read",
    "write",
    "month_add, first map",
    "month_add, next map",
    "windows",
    "why_record, handed out",
    "why_record, outside",
    "why_block, opened",
    "why_block, skipped",
    "salvage",
    "salvage, broken",
    "overlay_exist",
    "overlay_report",
    "overlay_select",
    "overlay_part",
};

bool takes_window(int operation)
{
    switch (operation) {
    case CHECK:
    case READ:
    case WRITE:
    case SALVAGE:
    case SALVAGE_BROKEN:
    case OVERLAY_PART:
        return false;
    default:
        return true;
    }
}

bool checks_first(int operation)
{
    return OPEN <= operation && operation <= SELECT;
}

void wrong(const char *why, const char *where)
{
    printf("WRONG: %s (%s)\n", why, where);
    exit(1);
}

block block_of(uint32_t m, uint32_t key, const char *where)
{
    block b = {0, 0, (int)m};
    uint32_t weight = 1;
    for (uint32_t i = 0; i < m; i++)
        weight *= 5;
    while (key > 0) {
        int quadrant;
        weight /= 5;
        quadrant = (int)(key / weight) - 1;
        if (quadrant < 0 || quadrant > 3)
            wrong("a key names no block", where);
        key %= weight;
        b.exponent--;
        b.row += quadrant / 2 << b.exponent;
        b.col += quadrant % 2 << b.exponent;
    }
    return b;
}

bool overlaps(const map *a, size_t record, rectangle at, const char *where)
{
    block b = block_of(a->m, a->keys[record], where);
    int side = 1 << b.exponent;
    return !apart(b.row, side, at.r0, at.h) && !apart(b.col, side, at.c0, at.w);
}

/* The file of a map. */
static uint8_t map_file[LUTNIORAD_MOST_FILE_BYTES];

lutniorad_answer call(const program *p, int operation, const map *a, rectangle at, result *r)
{
    static const lutniorad_answer none = {0, 0, 0, 0};
    switch (operation) {
    case CHECK:
        return p->check(a->m, a->keys, a->q, a->classes, a->q);
    case DECOMPOSE:
        return p->decompose(a->m, at.r0, at.c0, at.h, at.w, r->out, ROOM);
    case OPEN:
        return p->open(a->m, a->keys, a->q, a->classes, a->q, at.r0, at.c0, at.h, at.w, r->border, CELLS, r->out, ROOM);
    case EXIST:
        return p->exist(a->m, a->keys, a->q, a->classes, a->q, at.r0, at.c0, at.h, at.w, NO_CLASS, r->border, CELLS);
    case REPORT:
        return p->report(a->m, a->keys, a->q, a->classes, a->q, at.r0, at.c0, at.h, at.w, r->border, CELLS, r->out,
                         ROOM);
    case SELECT:
        return p->select(a->m, a->keys, a->q, a->classes, a->q, at.r0, at.c0, at.h, at.w, SCUM, r->border, CELLS,
                         r->out, ROOM);
    case READ:
        return p->read(map_file, LUTNIORAD_FILE_BYTES(a->q), r->out, ROOM, r->bytes, sizeof r->bytes);
    case WRITE:
        return p->write(a->m, a->keys, a->q, a->classes, a->q, r->bytes, sizeof r->bytes);
    case ADD_FIRST:
    case ADD_NEXT:
        return p->month_add(a->m, a->keys, a->q, a->classes, a->q, r->border, CELLS, r->table, MONTH_CELLS);
    default:
        return none;
    }
}

static int counts;

void begin_measuring(const char *file)
{
    counts = open(file, O_RDONLY);
    if (counts < 0)
        wrong("there are no counts: run this under the plugin", file);
}

static counted next_counts(void)
{
    counted so_far;
    if (read(counts, &so_far, sizeof so_far) != (ssize_t)sizeof so_far)
        wrong("the plugin leaves no counts", "measure");
    return so_far;
}

static counted minus(counted x, counted y)
{
    counted difference = {x.instructions - y.instructions, x.divisions - y.divisions};
    return difference;
}

typedef struct {
    direct_call *f;
    uint32_t number;
    size_t room;
} direct;

/*
 * The counts are read after the second mark, so that nothing but the call stands between the two. The anchor holds the
 * stack at a multiple of 64 bytes: what copying takes, from and to the stack, would else hang on the environment.
 * Inlined, so that with NOTHING the marks stand alone.
 */
__attribute__((always_inline)) static inline counted marked(const program *p, int operation, const direct *with,
                                                            const map *a, rectangle at, result *r)
{
    char anchor[64] __attribute__((aligned(64)));
    counted before;
    __asm__ volatile("" : : "r"(anchor) : "memory");
    syscall(MARK);
    r->answer = with == NULL ? call(p, operation, a, at, r) : with->f(a, at, with->number, with->room, r);
    syscall(MARK);
    before = next_counts();
    return minus(next_counts(), before);
}

/* Inlined too, so that it is known whether the call is made directly. */
__attribute__((always_inline)) static inline void measure_either(const program *p, int operation, const direct *with,
                                                                 const map *a, rectangle at, result *r)
{
    static counted around; /* the marks */
    static const lutniorad_reason none;
    static const lutniorad_part no_part;
    counted took;
    if (around.instructions == 0)
        around = marked(p, NOTHING, NULL, a, at, r);
    memset(r->border, 0xA5, sizeof r->border);
    memset(r->out, 0xA5, sizeof r->out);
    memset(r->bytes, 0xA5, sizeof r->bytes);
    lutniorad_write(a->m, a->keys, a->q, a->classes, a->q, map_file, sizeof map_file);
    make_month(r->table, a->m, at, operation == ADD_NEXT);
    r->reason = none;
    r->part = no_part;
    took = minus(marked(p, operation, with, a, at, r), around);
    r->instructions = took.instructions;
    r->divisions = took.divisions;
}

void measure(const program *p, int operation, const map *a, rectangle at, result *r)
{
    measure_either(p, operation, NULL, a, at, r);
}

void measure_direct(direct_call *f, const map *a, rectangle at, uint32_t number, size_t room, result *r)
{
    direct with = {f, number, room};
    measure_either(&library, NOTHING, &with, a, at, r);
}

lutniorad_answer direct_check(const map *a, rectangle at, uint32_t number, size_t room, result *r)
{
    (void)at, (void)number, (void)room, (void)r;
    return lutniorad_check(a->m, a->keys, a->q, a->classes, a->q);
}

lutniorad_answer direct_report(const map *a, rectangle at, uint32_t number, size_t room, result *r)
{
    (void)number;
    return lutniorad_report(a->m, a->keys, a->q, a->classes, a->q, at.r0, at.c0, at.h, at.w, r->border, CELLS, r->out,
                            room);
}

lutniorad_answer direct_sparse_report(const map *a, rectangle at, uint32_t number, size_t room, result *r)
{
    return lutniorad_sparse_report(a->m, (uint8_t)number, a->keys, a->q, a->classes, a->q, at.r0, at.c0, at.h, at.w,
                                   r->border, CELLS, r->out, room);
}

bool same_answers(const result *x, const result *y)
{
    return memcmp(&x->answer, &y->answer, sizeof x->answer) == 0 &&
           memcmp(&x->reason, &y->reason, sizeof x->reason) == 0 && memcmp(&x->part, &y->part, sizeof x->part) == 0 &&
           memcmp(x->border, y->border, sizeof x->border) == 0 && memcmp(x->out, y->out, sizeof x->out) == 0 &&
           memcmp(x->table, y->table, sizeof x->table) == 0 && memcmp(x->bytes, y->bytes, sizeof x->bytes) == 0;
}

bool has_records(const result *r, const map *a)
{
    return memcmp(r->out, a->keys, a->q * sizeof *a->keys) == 0 && memcmp(r->bytes, a->classes, a->q) == 0;
}

void hold_answers(const program *p, const result *is, const result *must, const char *where)
{
    if (!same_answers(is, must)) {
        char why[60];
        snprintf(why, sizeof why, "%s does not answer or leave what it must", p->name);
        wrong(why, where);
    }
}

static result other;

int64_t measure_same(const program *p, int operation, const map *a, rectangle at, const result *as, const char *where)
{
    measure(p, operation, a, at, &other);
    if (!same_answers(&other, as)) {
        char why[40];
        snprintf(why, sizeof why, "library and %s differ", p->name);
        wrong(why, where);
    }
    return other.instructions;
}

int64_t measure_check(const program *p, int operation, const map *a)
{
    static const rectangle empty = {0, 0, 0, 0};
    measure(p, operation, a, empty, &other);
    if (other.answer.refusal != 6)
        wrong("an empty window is not refused by 6", p->name);
    return other.instructions;
}
