#include "growth.h"

#include "measure.h"

#include <inttypes.h>
#include <stdio.h>

static map a;
static result r; /* of the library */

typedef struct {
    int64_t library, plain;
} pair;

static pair measure_pair(int operation, rectangle at)
{
    pair p;
    measure(&library, operation, &a, at, &r);
    p.library = r.instructions;
    p.plain = measure_same(&plain, operation, &a, at, &r, "growth");
    return p;
}

static pair open_past_check(rectangle at)
{
    pair p = measure_pair(OPEN, at);
    p.library -= measure_check(&library, OPEN, &a);
    p.plain -= measure_check(&plain, OPEN, &a);
    return p;
}

/* ---- The straight line with the least squares ---- */

enum { MOST_POINTS = 12 };

typedef struct {
    int n;
    double x[MOST_POINTS], y[MOST_POINTS];
} points;

static void add_point(points *p, double x, int64_t y)
{
    p->x[p->n] = x;
    p->y[p->n++] = (double)y;
}

static void print_fit(const char *name, const points *p, const char *of)
{
    double x = 0, y = 0, xx = 0, xy = 0, slope;
    for (int i = 0; i < p->n; i++) {
        x += p->x[i] / p->n;
        y += p->y[i] / p->n;
    }
    for (int i = 0; i < p->n; i++) {
        xx += (p->x[i] - x) * (p->x[i] - x);
        xy += (p->x[i] - x) * (p->y[i] - y);
    }
    slope = xy / xx;
    printf("%s %.1f x %s %+.0f", name, slope, of, y - slope * x);
}

static void print_fits(const points *ours, const points *plains, const char *of)
{
    printf("\nBy least squares: ");
    print_fit(library.name, ours, of);
    printf("; ");
    print_fit(plain.name, plains, of);
    printf(".\n");
}

/* ---- The tables ---- */

static void print_growth_of_squares(void)
{
    make_map(&a, LAKE);
    printf("\nSquares of side 2^k - 2 from row 1 and column 1 on, at m = 12: decomposing, and opening on the lake, "
           "past the check\n\n");
    printf("|  k | w + h | blocks | openings | decompose | each w + h | each block |    open | each w + h | each block "
           "|\n"
           "| -: | ----: | -----: | -------: | --------: | ---------: | ---------: | ------: | ---------: | ---------: "
           "|\n");
    for (int k = 2; k <= 12; k++) {
        uint16_t side = (uint16_t)((1 << k) - 2);
        rectangle at = {1, 1, side, side};
        int64_t cut = measure_pair(DECOMPOSE, at).library, opened;
        uint32_t blocks = r.answer.first;
        opened = open_past_check(at).library;
        printf("| %2d | %5d | %6" PRIu32 " | %8" PRIu32 " | %9" PRId64 " | %10.1f | %10.1f | %7" PRId64
               " | %10.1f | %10.1f |\n",
               k, 2 * side, blocks, r.answer.first, cut, (double)cut / (2 * side), (double)cut / blocks, opened,
               (double)opened / (2 * side), (double)opened / blocks);
    }
}

static void print_growth_of_open(void)
{
    points ours = {0, {0}, {0}}, plains = {0, {0}, {0}};
    make_map(&a, LAKE);
    printf("\nOpening on the lake, past the check: squares from row 1001 and column 1003 on\n\n");
    printf("| w + h | openings |   library | for each w + h |   plain C | for each w + h |\n");
    printf("| ----: | -------: | --------: | -------------: | --------: | -------------: |\n");
    for (int side = 15; side < 2048; side = 2 * side + 1) {
        rectangle at = {1001, 1003, (uint16_t)side, (uint16_t)side};
        pair p = open_past_check(at);
        printf("| %5d | %8" PRIu32 " | %9" PRId64 " | %14.1f | %9" PRId64 " | %14.1f |\n", 2 * side, r.answer.first,
               p.library, (double)p.library / (2 * side), p.plain, (double)p.plain / (2 * side));
        add_point(&ours, 2 * side, p.library);
        add_point(&plains, 2 * side, p.plain);
    }
    print_fits(&ours, &plains, "(w + h)");
}

static void print_growth_of_check(void)
{
    points ours = {0, {0}, {0}}, plains = {0, {0}, {0}};
    printf("\nChecking maps at m = 12 with a corner of 16 x 16 blocks, larger and larger\n\n");
    printf("|     Q |   library | for each record |   plain C | for each record |\n");
    printf("| ----: | --------: | --------------: | --------: | --------------: |\n");
    for (uint32_t exponent = 5; exponent <= 12; exponent++) {
        pair p;
        make_corner(&a, exponent);
        p = measure_pair(CHECK, make_window(a.m, TINY));
        printf("| %5zu | %9" PRId64 " | %15.1f | %9" PRId64 " | %15.1f |\n", a.q, p.library,
               (double)p.library / (double)a.q, p.plain, (double)p.plain / (double)a.q);
        add_point(&ours, (double)a.q, p.library);
        add_point(&plains, (double)a.q, p.plain);
    }
    print_fits(&ours, &plains, "Q");
}

void print_growth(void)
{
    print_growth_of_squares();
    print_growth_of_open();
    print_growth_of_check();
}
