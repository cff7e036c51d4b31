/*
 * The instructions of the library's operations, beside those of the programs in programs.h: tables over maps and
 * windows, what reading a key takes, what a tile costs, what many windows take in one call, what it takes to say why,
 * what is saved by leaving out background, what salvage takes, what a lake's day over the lake takes, what the tables
 * say in short, how the operations grow, and the experiment with random windows.
 *
 *     bench FILE-OF-COUNTS FILE-OF-BEFORE PLOT
 */
#include "cells.h"
#include "experiment.h"
#include "growth.h"
#include "many.h"
#include "overlay.h"
#include "reading.h"
#include "salvage.h"
#include "sparse.h"
#include "summary.h"
#include "tiles.h"
#include "why.h"

#include <inttypes.h>
#include <stdio.h>
#include <string.h>

static map a;
static cell cells[MOST_CELLS];
static int n_cells;

static double ratio(int64_t x, int64_t y)
{
    return (double)x / (double)y;
}

/* A number that was measured, and how many times that the library's is; with a mark where that is too much. */
static void print_ratio(int width, int64_t count, int64_t of_library, double most)
{
    double times = ratio(of_library, count);
    printf(" %*" PRId64 " | %6.2f%s |", width, count, times, times > most ? "*" : " ");
}

/* Opening by another program, past the check, and how many times the library's instructions that is. */
static void print_other(const program *p, int width, rectangle at, int64_t base, result *r)
{
    int64_t past;
    measure(p, OPEN, &a, at, r);
    past = r->instructions - measure_check(p, OPEN, &a);
    printf(" %*" PRId64 " | %7.2f |", width, past, ratio(past, base));
}

static void print_others(const cell *c)
{
    static result ours, others;
    rectangle at = make_window(a.m, c->window);
    char name[LONGEST_NAME];
    name_cell(c, name);
    measure(&library, OPEN, &a, at, &ours);
    print_other(&growing, 12, at, c->past_library, &others);
    if (memcmp(&others.answer, &ours.answer, sizeof ours.answer) != 0 ||
        memcmp(others.out, ours.out, sizeof ours.out) != 0)
        wrong("library and growing list differ", name);
    print_other(&every, 11, at, c->past_library, &others);
    if (others.answer.first != call(&library, DECOMPOSE, &a, at, &ours).first)
        wrong("there are not as many fetches as blocks", name);
}

static void print_cell(const cell *c)
{
    printf("| %-9s | %-15s | %-6s | %8" PRId64 " |", operation_names[c->operation], map_name(c), window_name(c),
           c->library);
    print_ratio(8, c->plain, c->library, MOST_OF_PLAIN);
    print_ratio(9, c->fastest, c->library, 1e9);
    print_ratio(8, c->before, c->library, c->before < FEW ? 1e9 : MOST_OF_BEFORE);
    if (checks_first(c->operation)) {
        printf(" %10" PRId64 " |", c->past_library);
        print_ratio(8, c->past_plain, c->past_library, MOST_OF_PLAIN);
    } else
        printf(" %10s | %8s | %7s |", "", "", "");
    if (c->operation == OPEN)
        print_others(c);
    else
        printf(" %12s | %7s | %11s | %7s |", "", "", "", "");
    printf("\n");
    fflush(stdout);
}

static void print_rows(int operation)
{
    int maps = operation == DECOMPOSE ? SQUARES + 1 : MAPS, windows = takes_window(operation) ? WINDOWS : 1;
    for (int number = 0; number < maps; number++) {
        make_map(&a, number);
        for (int window = 0; window < windows; window++) {
            cells[n_cells] = measure_cell(operation, &a, number, window);
            print_cell(&cells[n_cells++]);
        }
    }
}

static void print_table(void)
{
    printf("x86-64 instructions of a call. Behind those of plain C, of fastest C and of the library before: how many "
           "times that the library takes. Past check: without what the call takes to check the map. Growing list and "
           "every block: opening, past the check too, and how many times the library's.\n\n"
           "| operation | map             | window |  library |  plain C |   ratio | fastest C |   ratio |   before | "
           "  ratio | past check |  plain C |   ratio | growing list |   times | every block |   times |\n"
           "| :-------- | :-------------- | :----- | -------: | -------: | ------: | --------: | ------: | -------: | "
           "------: | ---------: | -------: | ------: | -----------: | ------: | ----------: | ------: |\n");
    for (int operation = 0; operation < ADD_FIRST; operation++)
        print_rows(operation);
}

/* Adding a map to a month, beside report and plain C. */
static void print_added(const cell *c, const cell *report)
{
    printf(" %9" PRId64 " | %8.2f | %8" PRId64 " |", c->library, ratio(c->library, report->library),
           c->library - report->library);
    print_ratio(8, c->plain, c->library, MOST_OF_PLAIN);
}

static void print_months_of(int number, int window)
{
    const cell *report = find_cell(cells, n_cells, REPORT, number, window), *added = cells + n_cells;
    for (int operation = ADD_FIRST; operation <= ADD_NEXT; operation++)
        cells[n_cells++] = measure_cell(operation, &a, number, window);
    printf("| %-15s | %-6s | %8" PRId64 " |", map_name(report), window_name(report), report->library);
    for (; added < cells + n_cells; added++)
        print_added(added, report);
    printf("\n");
    fflush(stdout);
}

static void print_months(void)
{
    printf("\nAdding a map to a month: the first map, and a next one, beside report of the same map and window, and "
           "beside plain C.\n\n"
           "| map             | window |   report | first map | / report | - report |  plain C |   ratio |  next map | "
           "/ report | - report |  plain C |   ratio |\n"
           "| :-------------- | :----- | -------: | --------: | -------: | -------: | -------: | ------: | --------: | "
           "-------: | -------: | -------: | ------: |\n");
    for (int number = 0; number < MAPS; number++) {
        make_map(&a, number);
        for (int window = 0; window < WINDOWS; window++)
            print_months_of(number, window);
    }
}

int main(int argc, char **argv)
{
    if (argc != 4) {
        fprintf(stderr, "usage: bench FILE-OF-COUNTS FILE-OF-BEFORE PLOT\n");
        return 2;
    }
    begin_measuring(argv[1]);
    read_before(argv[2]);
    print_table();
    print_months();
    print_reading();
    print_tiles(cells, n_cells);
    n_cells = print_many(cells, n_cells);
    n_cells = print_why(cells, n_cells);
    print_sparse();
    n_cells = print_salvage(cells, n_cells);
    n_cells = print_overlay(cells, n_cells);
    print_summaries(cells, n_cells);
    print_against_before(cells, n_cells);
    print_wanted(cells, n_cells);
    print_growth();
    experiment(argv[3]);
    return 0;
}
