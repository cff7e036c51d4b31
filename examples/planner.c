/*
 * Says what two windows have together, where their union is a rectangle too: of each class the pixels in the first, in
 * the second, in the union and in what they share. House file and windows are named on the command line.
 *
 * The library is asked for the two windows and for what they share, and not for the union: where that is a rectangle,
 * the reports of the two windows add up, class by class, to that of the union and that of what they share, which is
 * proved. It is one just when the sizes of the windows add up so.
 */
#include "common.h"

enum { NAME = 1, ONE, OTHER = ONE + 4, ARGUMENTS = OTHER + 4 }; /* behind the program's name */
enum { FIRST, SECOND, UNION, SHARED, WINDOWS };

static const char *const names[WINDOWS] = {"first", "second", "union", "shared"};

static picture lake;
static uint16_t border[LUTNIORAD_MOST_SIDE]; /* a wider window is outside every picture, and refused for that */
static window windows[WINDOWS];
static uint32_t totals[WINDOWS][LUTNIORAD_CLASSES];

static int lesser(int a, int b)
{
    return a < b ? a : b;
}

static int greater(int a, int b)
{
    return a > b ? a : b;
}

/* From a row and a column on to before others. It has no rows, or no columns, where these come first. */
static window between(int row, int col, int rows_end, int cols_end)
{
    window at = {(uint16_t)row, (uint16_t)col, (uint16_t)greater(rows_end - row, 0),
                 (uint16_t)greater(cols_end - col, 0)};
    return at;
}

/* From the least of the edges to the greatest. */
static window hull(window a, window b)
{
    return between(lesser(a.r0, b.r0), lesser(a.c0, b.c0), greater(a.r0 + a.h, b.r0 + b.h),
                   greater(a.c0 + a.w, b.c0 + b.w));
}

/* From the greatest of the edges to the least. */
static window meet(window a, window b)
{
    return between(greater(a.r0, b.r0), greater(a.c0, b.c0), lesser(a.r0 + a.h, b.r0 + b.h),
                   lesser(a.c0 + a.w, b.c0 + b.w));
}

static uint32_t size(window at)
{
    return (uint32_t)at.h * at.w;
}

/* False where the window is refused, which is said. */
static int ask(int which)
{
    window at = windows[which];
    lutniorad_answer a = lutniorad_report(lake.m, lake.keys, lake.q, lake.classes, lake.q, at.r0, at.c0, at.h, at.w,
                                          border, LUTNIORAD_MOST_SIDE, totals[which], LUTNIORAD_CLASSES);
    if (a.refusal == LUTNIORAD_ANSWERED)
        return 1;
    printf("%s: ", names[which]);
    say_refusal(stdout, a);
    return 0;
}

static void print_window(int which)
{
    window at = windows[which];
    if (size(at) == 0)
        printf("%s: nothing\n", names[which]);
    else
        printf("%s: row %u, column %u, %u by %u, pixels %u\n", names[which], (unsigned)at.r0, (unsigned)at.c0,
               (unsigned)at.h, (unsigned)at.w, (unsigned)size(at));
}

static void print_plan(void)
{
    for (int i = 0; i < WINDOWS; i++)
        print_window(i);
    printf("class     first    second     union    shared\n");
    for (int k = 0; k < LUTNIORAD_CLASSES; k++)
        if (totals[UNION][k] > 0)
            printf("%5d  %8u  %8u  %8u  %8u\n", k, (unsigned)totals[FIRST][k], (unsigned)totals[SECOND][k],
                   (unsigned)totals[UNION][k], (unsigned)totals[SHARED][k]);
}

/* Returns the status. Both windows are inside the picture before anything is made of their edges. */
static int plan(void)
{
    if (!ask(FIRST) || !ask(SECOND))
        return 1;
    windows[UNION] = hull(windows[FIRST], windows[SECOND]);
    windows[SHARED] = meet(windows[FIRST], windows[SECOND]);
    if (size(windows[FIRST]) + size(windows[SECOND]) != size(windows[UNION]) + size(windows[SHARED])) {
        puts("the union of the two windows is no rectangle");
        return 1;
    }
    if (size(windows[SHARED]) > 0 && !ask(SHARED)) /* else all its totals are 0, as they stand */
        return 1;
    for (int k = 0; k < LUTNIORAD_CLASSES; k++)
        totals[UNION][k] = totals[FIRST][k] + totals[SECOND][k] - totals[SHARED][k];
    print_plan();
    return 0;
}

int main(int argc, char **argv)
{
    lutniorad_answer a;
    if (argc != ARGUMENTS || !take_window(argv + ONE, &windows[FIRST]) ||
        !take_window(argv + OTHER, &windows[SECOND])) {
        fprintf(stderr, "usage: planner FILE R0 C0 H W R0 C0 H W, with a house file\n");
        return 2;
    }
    if (!read_picture(argv[NAME], &lake, &a))
        return 2;
    if (a.refusal != LUTNIORAD_ANSWERED) {
        say_refusal(stdout, a);
        return end_with("planner", 1);
    }
    return end_with("planner", plan());
}
