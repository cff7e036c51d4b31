#include "summary.h"

#include <stdbool.h>
#include <stdio.h>
#include <stdlib.h>

/* ---- Ratios ---- */

typedef struct {
    int n, over;
    double ratios[MOST_CELLS], greatest;
    const cell *worst;
} ratios;

static void put(ratios *r, const cell *c, int64_t ours, int64_t other)
{
    double ratio = (double)ours / (double)other;
    r->ratios[r->n++] = ratio;
    r->over += ratio > MOST_OF_PLAIN;
    if (ratio > r->greatest) {
        r->greatest = ratio;
        r->worst = c;
    }
}

static int compare(const void *x, const void *y)
{
    double a = *(const double *)x, b = *(const double *)y;
    return (a > b) - (a < b);
}

/* Puts them in order. */
static double median(ratios *r)
{
    qsort(r->ratios, (size_t)r->n, sizeof *r->ratios, compare);
    return (r->ratios[(r->n - 1) / 2] + r->ratios[r->n / 2]) / 2;
}

static void print_ratios(const char *name, const char *part, ratios *of_plain, ratios *of_fastest)
{
    char whole[40], where[LONGEST_NAME];
    double middle = median(of_plain);
    snprintf(whole, sizeof whole, "%s%s", name, part);
    name_cell(of_plain->worst, where);
    printf("| %-38s | %6.2f | %6.2f%s | %8.2f | %-22s | %2d of %2d |", whole, of_plain->ratios[0], middle,
           middle > MOST_OF_PLAIN ? "*" : " ", of_plain->greatest, where, of_plain->over, of_plain->n);
    if (of_fastest->n > 0)
        printf(" %17.2f |\n", median(of_fastest));
    else
        printf(" %17s |\n", "");
}

static void summarize(int operation, const cell *cells, int n)
{
    static const ratios none;
    static ratios wholes, pasts, fastests, nothing;
    wholes = pasts = fastests = nothing = none;
    for (const cell *c = cells; c < cells + n; c++)
        if (c->operation == operation) {
            put(&wholes, c, c->library, c->plain);
            if (c->fastest > 0)
                put(&fastests, c, c->library, c->fastest);
            if (c->past_plain > 0)
                put(&pasts, c, c->past_library, c->past_plain);
        }
    print_ratios(operation_names[operation], "", &wholes, &fastests);
    if (pasts.n > 0)
        print_ratios(operation_names[operation], ", past the check", &pasts, &nothing);
}

void print_summaries(const cell *cells, int n)
{
    printf("\nThe aim: at most %.1f times the plain C, in the median of each operation. * marks where that is not "
           "reached, in the table for each cell.\n\n",
           MOST_OF_PLAIN);
    printf("| library / plain C                      |  least | median  | greatest | where                  | "
           "over %.1f | median of fastest |\n",
           MOST_OF_PLAIN);
    printf("| :------------------------------------- | -----: | ------: | -------: | :--------------------- | "
           "-------: | ----------------: |\n");
    for (int operation = 0; operation < OPERATIONS; operation++)
        summarize(operation, cells, n);
}

/* ---- Against what it was ---- */

static bool takes_more(const cell *c)
{
    return c->before >= FEW && (double)c->library > MOST_OF_BEFORE * (double)c->before;
}

void print_against_before(const cell *cells, int n)
{
    int over = 0, all = 0;
    char name[LONGEST_NAME];
    for (const cell *c = cells; c < cells + n; c++) {
        all += c->before >= FEW;
        over += takes_more(c);
    }
    printf("\nOver %.2f times what it took before, of the cells that took %d instructions or more: %d of %d%s",
           MOST_OF_BEFORE, FEW, over, all, over > 0 ? ":" : ".");
    for (const cell *c = cells; c < cells + n; c++)
        if (takes_more(c)) {
            name_cell(c, name);
            printf(" %s %s%s", operation_names[c->operation], name, --over > 0 ? "," : ".");
        }
    printf("\n");
}

/* ---- Totals ---- */

static void print_want(const char *what, const char *unit, double most, double is)
{
    printf("| %-42s | %-12s | %7.3f | %7.3f | %-7s |\n", what, unit, most, is, is <= most ? "met" : "not met");
}

/* All that the call takes, shared out; and without what it takes besides, which is what it takes on one record. */
static void print_want_of_check(const cell *cells, int n, int number)
{
    const cell *c = find_cell(cells, n, CHECK, number, 0), *one = find_cell(cells, n, CHECK, ONE, 0);
    char what[LONGEST_NAME];
    snprintf(what, sizeof what, "check, %s: each record", map_name(c));
    print_want(what, "instructions", 25, (double)c->library / (double)c->records);
    snprintf(what, sizeof what, "check, %s: each further record", map_name(c));
    print_want(what, "instructions", 25, (double)(c->library - one->library) / (double)(c->records - 1));
}

/* Adding a map to a month: so many times report, and so many instructions beyond that, in every cell. */
#define MOST_OF_REPORT 1.05
enum { MOST_BEYOND = 15000 };

static void print_want_of_adding(const cell *cells, int n, int operation)
{
    double most = -1e12;
    char what[LONGEST_NAME];
    for (const cell *c = cells; c < cells + n; c++)
        if (c->operation == operation) {
            const cell *report = find_cell(cells, n, REPORT, c->map, c->window);
            double beyond = (double)c->library - MOST_OF_REPORT * (double)report->library;
            if (beyond > most)
                most = beyond;
        }
    snprintf(what, sizeof what, "%s: beyond report", operation_names[operation]);
    print_want(what, "thousands", MOST_BEYOND / 1e3, most / 1e3);
}

/* How many times something else that was measured there a cell takes; 0 where that does not count. */
typedef double times_in(const cell *c);

static double of_opening(const cell *c)
{
    return (double)c->past_library / (double)c->past_opening;
}

static double of_reports(const cell *c)
{
    return (double)c->library / (double)c->reports;
}

/* Of maps whose check takes few instructions, or of the others. */
static double of_short_check(const cell *c)
{
    return c->check < FEW ? (double)c->library / (double)c->check : 0;
}

static double of_check(const cell *c)
{
    return c->check < FEW ? 0 : (double)c->library / (double)c->check;
}

/* Where that is most, among the cells of an operation. */
static double most_times(const cell *cells, int n, int operation, times_in *times)
{
    double most = 0;
    for (const cell *c = cells; c < cells + n; c++)
        if (c->operation == operation && times(c) > most)
            most = times(c);
    return most;
}

void print_wanted(const cell *cells, int n)
{
    static const struct {
        int operation, map;
        double most;
        const char *what;
    } wants[] = {
        {DECOMPOSE, SQUARES, 3.5, "decompose, whole window at m = 12"}, {OPEN, LAKE, 2.5, "open, lake, whole window"},
        {REPORT, LAKE, 3.4, "report, lake, whole window"},              {EXIST, LAKE, 2.6, "exist, lake, whole window"},
        {SELECT, LAKE, 7, "select, lake, whole window"},
    };
    printf("\nTotals that are wanted. Each record: the whole call by the number of records. Each further record: "
           "without what the call takes on a map of one. Beyond report: what adding a map takes beyond %.2f times "
           "report of the same map and window, where that is most. Of opening: how many times what opening the windows "
           "one by one takes past the check, where that is most. Of its check: how many times what the check of the "
           "map takes, where that is most, of maps whose check takes %d instructions or more; of those whose check "
           "takes fewer it is %.3f times. Of the two reports: how many times what they take together, where that is "
           "most.\n\n"
           "| wanted                                     | in           | at most |      is |         |\n"
           "| :----------------------------------------- | :----------- | ------: | ------: | :------ |\n",
           MOST_OF_REPORT, FEW, most_times(cells, n, SALVAGE, of_short_check));
    for (int number = PIXELS; number <= LAKE; number++)
        print_want_of_check(cells, n, number);
    for (size_t i = 0; i < sizeof wants / sizeof *wants; i++)
        print_want(wants[i].what, "millions", wants[i].most,
                   (double)find_cell(cells, n, wants[i].operation, wants[i].map, WHOLE)->library / 1e6);
    for (int operation = ADD_FIRST; operation <= ADD_NEXT; operation++)
        print_want_of_adding(cells, n, operation);
    print_want("windows, past the check: of opening", "times", MOST_OF_SINGLES, most_times(cells, n, MANY, of_opening));
    print_want("salvage of a sound map: of its check", "times", MOST_OF_CHECK, most_times(cells, n, SALVAGE, of_check));
    print_want("report of an overlay: of the two reports", "times", MOST_OF_REPORTS,
               most_times(cells, n, OVERLAY_REPORT, of_reports));
}
