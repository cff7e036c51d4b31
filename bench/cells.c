#include "cells.h"

#include <inttypes.h>
#include <stdbool.h>
#include <stdio.h>
#include <stdlib.h>
#include <string.h>

const char *map_name(const cell *c)
{
    if (c->operation == DECOMPOSE)
        return c->map == PIXELS ? "m = 8" : "m = 12";
    return c->operation < OVERLAY_EXIST ? map_names[c->map] : day_names[c->map];
}

const char *window_name(const cell *c)
{
    if (c->operation == SALVAGE_BROKEN)
        return fault_names[c->window];
    if (c->operation == OVERLAY_PART)
        return block_names[c->window];
    return takes_window(c->operation) ? window_names[c->window] : "";
}

void name_cell(const cell *c, char name[LONGEST_NAME])
{
    const char *window = window_name(c);
    snprintf(name, LONGEST_NAME, "%s%s%s", map_name(c), *window != '\0' ? " " : "", window);
}

void name_call(const cell *c, char name[LONGEST_CALL])
{
    char on[LONGEST_NAME];
    name_cell(c, on);
    snprintf(name, LONGEST_CALL, "%s, %s", operation_names[c->operation], on);
}

/* ---- What it took before ---- */

enum { LONGEST_LINE = 100, MOST_LINES = MOST_CELLS + 100 };
static char lines[MOST_LINES][LONGEST_LINE];
static int n_lines;

void read_before(const char *file)
{
    FILE *from = fopen(file, "r");
    if (from == NULL)
        wrong("it cannot be read what the cells took before", file);
    while (n_lines < MOST_LINES && fgets(lines[n_lines], LONGEST_LINE, from) != NULL)
        n_lines++;
    fclose(from);
}

int64_t told_before(const char *operation, const char *on, const char *window)
{
    char start[LONGEST_LINE];
    int64_t count;
    snprintf(start, sizeof start, "%s | %s | %s | ", operation, on, window);
    for (int i = 0; i < n_lines; i++)
        if (strncmp(lines[i], start, strlen(start)) == 0 && sscanf(lines[i] + strlen(start), "%" SCNd64, &count) == 1)
            return count;
    return -1;
}

int64_t cell_before(const cell *c, const char *where)
{
    int64_t count = told_before(operation_names[c->operation], map_name(c), window_name(c));
    if (count < 0 && c->operation < ADD_FIRST)
        wrong("it is not told what a cell took before", where);
    return count < 0 ? 0 : count;
}

/* ---- What it takes ---- */

cell begin_cell(int operation, const map *a, int map_number, int window_number)
{
    cell c = {.operation = operation, .map = map_number, .window = window_number, .records = a->q};
    return c;
}

/* What was added to a month must be what report says, and the border must be as report leaves it. */
static void hold_against_report(const result *added, int operation, const map *a, rectangle at, const char *where)
{
    static result reported;
    bool next = operation == ADD_NEXT;
    measure(&library, REPORT, a, at, &reported);
    if (added->answer.first != 1 + (uint32_t)next || !is_month_with(added->table, a->m, at, next, reported.out))
        wrong("the month is not what report says", where);
    if (memcmp(added->border, reported.border, sizeof reported.border) != 0)
        wrong("the month and report leave different borders", where);
}

uint32_t existence(const uint32_t totals[LUTNIORAD_CLASSES], uint8_t class)
{
    if (totals[class] > 0)
        return LUTNIORAD_YES;
    return totals[NOT_SEEN] > 0 ? LUTNIORAD_CANNOT_TELL : LUTNIORAD_NO;
}

/* Exist must answer what report says, and leave the border as report does. */
static void hold_exist(const program *p, const map *a, rectangle at, uint8_t class, const result *reported,
                       const char *where)
{
    static uint16_t border[CELLS];
    lutniorad_answer is, must = {0, 0, existence(reported->out, class), 0};
    memset(border, 0xA5, sizeof border);
    is = p->exist(a->m, a->keys, a->q, a->classes, a->q, at.r0, at.c0, at.h, at.w, class, border, CELLS);
    if (memcmp(&is, &must, sizeof is) != 0 || memcmp(border, reported->border, at.w * sizeof *border) != 0) {
        char why[80];
        snprintf(why, sizeof why, "with a record not seen, exist of %s is not what report says", p->name);
        wrong(why, where);
    }
}

/*
 * On no map is a record that was not seen. So one is painted: the first of the map, then here and there in the window
 * one in the middle or at the end of those that are handed out together.
 */
static void hold_unseen(const program *p, const map *a, rectangle at, const char *where)
{
    enum { PAINTED = 30 };
    static map painted;
    static result opened, r;
    uint32_t n = call(&library, OPEN, a, at, &opened).first;
    painted = *a;
    for (uint32_t i = 0; i <= PAINTED; i++) {
        const uint32_t *opening = opened.out + 3 * ((n - 1) * i / PAINTED);
        uint32_t record = i == 0 ? 0 : opening[1] + (i % 2 == 0 ? opening[2] - 1 : opening[2] / 2);
        painted.classes[record] = NOT_SEEN;
        call(&library, REPORT, &painted, at, &r);
        if (i > 0 && r.out[NOT_SEEN] == 0)
            wrong("report does not tell what was not seen", where);
        hold_exist(p, &painted, at, NO_CLASS, &r, where);
        hold_exist(p, &painted, at, SCUM, &r, where);
        hold_exist(p, &painted, at, NOT_SEEN, &r, where);
        painted.classes[record] = a->classes[record];
    }
}

/* What is read from the file of a map must be that map. */
static void hold_read(const result *r, const map *a, const char *where)
{
    if (r->answer.first != a->m || r->answer.second != a->q || !has_records(r, a))
        wrong("another map is read than was written", where);
}

cell measure_cell(int operation, const map *a, int map_number, int window_number)
{
    static result r;
    bool adds = operation >= ADD_FIRST;
    cell c = begin_cell(operation, a, map_number, window_number);
    rectangle at = make_window(a->m, window_number);
    char where[LONGEST_CALL];
    name_call(&c, where);
    measure(&library, operation, a, at, &r);
    if (r.answer.refusal != 0)
        wrong("the library refuses", where);
    if (adds)
        hold_against_report(&r, operation, a, at, where);
    if (operation == READ)
        hold_read(&r, a, where);
    if (operation == EXIST) {
        hold_unseen(&library, a, at, where);
        hold_unseen(&plain, a, at, where);
        hold_unseen(&fastest, a, at, where);
    }
    c.library = r.instructions;
    c.plain = measure_same(&plain, operation, a, at, &r, where);
    c.before = cell_before(&c, where);
    if (adds)
        return c;
    c.fastest = measure_same(&fastest, operation, a, at, &r, where);
    if (checks_first(operation)) {
        c.past_library = c.library - measure_check(&library, operation, a);
        c.past_plain = c.plain - measure_check(&plain, operation, a);
    }
    return c;
}

const cell *find_cell(const cell *cells, int n, int operation, int map_number, int window_number)
{
    for (const cell *c = cells; c < cells + n; c++)
        if (c->operation == operation && c->map == map_number && c->window == window_number)
            return c;
    abort();
}
