/*
 * The check of a map reads a key whose block does not start where the last record ended. So maps are checked of which
 * the last key is such a one, and refused once it is read. What the call takes besides has no division.
 */
#include "reading.h"

#include "cells.h"
#include "mark.h"
#include "summary.h"

#include <inttypes.h>
#include <stdio.h>

enum { M = 12, P9 = 1953125, P10 = 5 * P9, P11 = 5 * P10, P12 = 5 * P11 };

/* Keys, and how a map is refused that has one: those of exponents 0 to 12, in this order, then malformed ones. */
static const struct {
    const char *name;
    uint32_t key, refusal, place;
} readings[] = {
    {"exponent 0", P12 - 1, 5, 0},
    {"exponent 1", P12 - 5, 5, 0},
    {"exponent 2", P12 - 25, 5, 0},
    {"exponent 3", P12 - 125, 5, 0},
    {"exponent 4", P12 - 625, 5, 0},
    {"exponent 5", P12 - 3125, 5, 0},
    {"exponent 6", P12 - 15625, 5, 0},
    {"exponent 7", P12 - 78125, 5, 0},
    {"exponent 8", P12 - 390625, 5, 0},
    {"exponent 9", P12 - P9, 5, 0},
    {"exponent 10", P12 - P10, 5, 0},
    {"exponent 11", P12 - P11, 5, 0},
    {"exponent 12", 0, 4, 1},
    {"044444444444", P11 - 1, 3, 0},
    {"404444444444", P12 - 1 - 4 * P10, 3, 0},
    {"444444444404", P12 - 1 - 4 * 5, 3, 0},
    {"5^12", P12, 3, 0},
};
enum { READINGS = sizeof readings / sizeof *readings };

typedef struct {
    counted library, before, plain;
} costs;

static map a;

static void begin_map(uint32_t m)
{
    a.m = m;
    a.q = 0;
}

static void add_record(uint32_t key)
{
    a.keys[a.q] = key;
    a.classes[a.q++] = CLEAR;
}

static counted measure_map(const program *p, uint32_t refusal, uint32_t place, const char *where)
{
    static result r;
    counted took;
    measure(p, CHECK, &a, make_window(M, TINY), &r);
    if (r.answer.refusal != refusal || r.answer.place != place)
        wrong("a check that reads a key gives another answer", where);
    took.instructions = r.instructions;
    took.divisions = r.divisions;
    return took;
}

/* Key 0 starts where any map does, so it stands behind the north-west quadrant. */
static counted measure_reading(const program *p, int i)
{
    begin_map(M);
    if (readings[i].key == 0)
        add_record(P11);
    add_record(readings[i].key);
    return measure_map(p, readings[i].refusal, readings[i].place, readings[i].name);
}

static void hold_without_reading(const program *p)
{
    begin_map(M);
    add_record(0);
    if (measure_map(p, 0, 0, "key 0 alone").divisions != 0)
        wrong("a check that reads no key divides", p->name);
}

static counted taken_before(int i)
{
    counted before = {told_before("check, a key is read", readings[i].name, ""),
                      told_before("divisions, a key is read", readings[i].name, "")};
    if (before.instructions < 0 || before.divisions < 0)
        wrong("it is not told what reading a key took before", readings[i].name);
    return before;
}

static double ratio(counted x, counted y)
{
    return (double)x.instructions / (double)y.instructions;
}

static void print_costs(const char *name, costs c)
{
    double times = ratio(c.library, c.before);
    printf("| %-12s | %7" PRId64 " | %6" PRId64 " | %5.2f%s | %7" PRId64 " | %6.2f | %9" PRId64 " | %6" PRId64
           " | %7" PRId64 " |\n",
           name, c.library.instructions, c.before.instructions, times, times > MOST_OF_BEFORE ? "*" : " ",
           c.plain.instructions, ratio(c.library, c.plain), c.library.divisions, c.before.divisions, c.plain.divisions);
}

/* Wanted: of each key, at most so many times the instructions of before, and no more divisions. */
static void print_short(const costs *all)
{
    int worst = 0, divided_more = 0;
    double times;
    for (int i = 0; i < READINGS; i++) {
        divided_more += all[i].library.divisions > all[i].before.divisions;
        if (ratio(all[i].library, all[i].before) > ratio(all[worst].library, all[worst].before))
            worst = i;
    }
    times = ratio(all[worst].library, all[worst].before);
    printf("\nInstructions: at most %.2f times before, at %s; wanted is %.2f: %s. Keys that take more divisions than "
           "before: %d; wanted is none: %s.\n",
           times, readings[worst].name, MOST_OF_BEFORE, times <= MOST_OF_BEFORE ? "met" : "not met", divided_more,
           divided_more == 0 ? "met" : "not met");
}

static uint32_t power_of_5(uint32_t exponent)
{
    return exponent == 0 ? 1 : 5 * power_of_5(exponent - 1);
}

/* Of smaller pictures: the last block with so many digits. */
static void print_digits(uint32_t m, uint32_t digits)
{
    counted took;
    begin_map(m);
    add_record(power_of_5(m) - power_of_5(m - digits));
    took = measure_map(&library, 5, 0, "a smaller picture");
    printf(" %3" PRId64 " (%2" PRId64 ") |", took.instructions, took.divisions);
}

static void print_smaller(void)
{
    printf("\nThe same at smaller m, by the digits before the zeros of a block's key: instructions of the library, and "
           "divisions.\n\n|  m |");
    for (uint32_t digits = 1; digits < M; digits++)
        printf(" %8" PRIu32 " |", digits);
    printf("\n| -: |");
    for (uint32_t digits = 1; digits < M; digits++)
        printf(" -------: |");
    printf("\n");
    for (uint32_t m = 1; m < M; m++) {
        printf("| %2" PRIu32 " |", m);
        for (uint32_t digits = 1; digits <= m; digits++)
            print_digits(m, digits);
        for (uint32_t digits = m + 1; digits < M; digits++)
            printf(" %8s |", "");
        printf("\n");
    }
}

void print_reading(void)
{
    costs all[READINGS];
    hold_without_reading(&library);
    hold_without_reading(&plain);
    printf("\nReading a key, at m = %d: a check that is refused once the key is read. The last keys are malformed. * "
           "marks what is over %.2f times before.\n\n"
           "| key          | library | before |  ratio | plain C |  ratio | divisions | before | plain C |\n"
           "| :----------- | ------: | -----: | -----: | ------: | -----: | --------: | -----: | ------: |\n",
           M, MOST_OF_BEFORE);
    for (int i = 0; i < READINGS; i++) {
        all[i].library = measure_reading(&library, i);
        all[i].before = taken_before(i);
        all[i].plain = measure_reading(&plain, i);
        print_costs(readings[i].name, all[i]);
    }
    print_short(all);
    print_smaller();
}
