/*
 * Says what the house files of a month, one for each day, have in one window: for each class that some day has there,
 * the least, the greatest and the mean number of its pixels, and on how many days it is there. The mean is over all
 * days, to the nearest hundredth of a pixel, halves up. A file that cannot be taken is named on standard error and left
 * out.
 *
 * The status is 0 where every file was taken, 1 where some were left out, and 2 where there is no month.
 */
#include "common.h"

enum { WINDOW = 1, FIRST_FILE = WINDOW + 4 }; /* behind the program's name */
enum { MAPS = 5, CLASS_0 = 6, OF_CLASS = 4 }; /* of the table: the first cells, and how many each class has */
enum { LEAST, GREATEST, SUM, PRESENT }; /* the cells of a class */

static picture lake;
static uint16_t border[LUTNIORAD_MOST_SIDE]; /* a wider window is outside every picture, and begins no month */
static uint64_t table[LUTNIORAD_MONTH_CELLS];

/* Until there is a map in the table, each file begins it anew: so the month is of the m of the first map taken. */
static lutniorad_answer add_lake(window at)
{
    lutniorad_answer a = {LUTNIORAD_ANSWERED, 0, 0, 0};
    if (table[MAPS] == 0)
        a = lutniorad_month_clear(lake.m, at.r0, at.c0, at.h, at.w, table, LUTNIORAD_MONTH_CELLS);
    if (a.refusal == LUTNIORAD_ANSWERED)
        a = lutniorad_month_add(lake.m, lake.keys, lake.q, lake.classes, lake.q, border, LUTNIORAD_MOST_SIDE, table,
                                LUTNIORAD_MONTH_CELLS);
    return a;
}

/* False where the file is left out. */
static int take_file(const char *name, window at)
{
    lutniorad_answer a;
    if (!read_picture(name, &lake, &a))
        return 0;
    if (a.refusal == LUTNIORAD_ANSWERED)
        a = add_lake(at);
    if (a.refusal == LUTNIORAD_ANSWERED)
        return 1;
    fprintf(stderr, "%s: ", name);
    say_refusal(stderr, a);
    return 0;
}

static void print_month(window at)
{
    uint64_t days = table[MAPS];
    printf("pixels in the window: %u, days: %u\n", (unsigned)at.h * at.w, (unsigned)days);
    printf("class     least  greatest         mean     days\n");
    for (int k = 0; k < LUTNIORAD_CLASSES; k++) {
        const uint64_t *of = table + CLASS_0 + OF_CLASS * k;
        unsigned hundredths = (unsigned)((100 * of[SUM] + days / 2) / days);
        if (of[PRESENT] > 0)
            printf("%5d  %8u  %8u  %8u.%02u  %7u\n", k, (unsigned)of[LEAST], (unsigned)of[GREATEST], hundredths / 100,
                   hundredths % 100, (unsigned)of[PRESENT]);
    }
}

int main(int argc, char **argv)
{
    window at;
    int left_out = 0;
    if (argc <= FIRST_FILE || !take_window(argv + WINDOW, &at)) {
        fprintf(stderr, "usage: month R0 C0 H W FILE..., the files of a month\n");
        return 2;
    }
    for (int i = FIRST_FILE; i < argc; i++)
        left_out += !take_file(argv[i], at);
    if (table[MAPS] == 0) {
        fprintf(stderr, "month: no map was taken\n");
        return 2;
    }
    print_month(at);
    return end_with("month", left_out > 0);
}
