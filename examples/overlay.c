/*
 * Lays today's map over the baseline of the season. Says how many pixels of each class a window then has, and in which
 * blocks one class is there; and of each of these blocks which records a viewer has to show, today's or the baseline's.
 * The two house files, the window and the class are named on the command line. Today's map may have gaps, or no record.
 */
#include "common.h"

enum { TODAYS_NAME = 1, BASE_NAME, WINDOW, CLASS = WINDOW + 4, ARGUMENTS }; /* behind the program's name */

static picture today, base;
static uint16_t border[LUTNIORAD_MOST_SIDE]; /* a wider window is outside every picture, and refused for that */

/* Whose map it is, or nothing where it is neither's. */
static const char *whose(uint32_t map)
{
    return map == LUTNIORAD_TODAY ? "today" : map == LUTNIORAD_BASELINE ? "baseline" : "";
}

/* Returns the status. */
static int say_refused(lutniorad_answer a, uint32_t map)
{
    printf("%s%s", whose(map), map == 0 ? "" : ": ");
    say_refusal(stdout, a);
    return 1;
}

static lutniorad_answer print_totals(window at)
{
    uint32_t totals[LUTNIORAD_CLASSES];
    lutniorad_answer a = lutniorad_overlay_report(today.m, today.keys, today.q, today.classes, today.q, base.m,
                                                  base.keys, base.q, base.classes, base.q, at.r0, at.c0, at.h, at.w,
                                                  border, LUTNIORAD_MOST_SIDE, totals, LUTNIORAD_CLASSES);
    for (unsigned i = 0; a.refusal == LUTNIORAD_ANSWERED && i < LUTNIORAD_CLASSES; i++)
        if (totals[i] > 0)
            printf("class %u, pixels %u\n", i, (unsigned)totals[i]);
    return a;
}

static lutniorad_answer select_class(window at, uint8_t of_class, uint32_t *keys, size_t n)
{
    return lutniorad_overlay_select(today.m, today.keys, today.q, today.classes, today.q, base.m, base.keys, base.q,
                                    base.classes, base.q, at.r0, at.c0, at.h, at.w, of_class, border,
                                    LUTNIORAD_MOST_SIDE, keys, n);
}

static void print_block(uint32_t key)
{
    lutniorad_part p = lutniorad_overlay_part(today.m, today.keys, today.q, today.classes, today.q, base.m, base.keys,
                                              base.q, base.classes, base.q, key);
    printf("block %u, %s, first record %u, records %u\n", (unsigned)key, whose(p.map), (unsigned)p.first,
           (unsigned)p.count);
}

/* Of a window that report has answered. Returns the status. */
static int print_blocks(window at, uint8_t of_class)
{
    size_t most = (size_t)at.h * at.w; /* always enough */
    uint32_t *keys = (uint32_t *)malloc(most * sizeof *keys);
    if (keys == NULL) {
        fprintf(stderr, "overlay: no memory for %zu keys\n", most);
        return 2;
    }
    uint32_t n = select_class(at, of_class, keys, most).first;
    for (uint32_t i = 0; i < n; i++)
        print_block(keys[i]);
    free(keys);
    return 0;
}

int main(int argc, char **argv)
{
    window at;
    unsigned long of_class;
    lutniorad_answer of_today, of_base, a;
    if (argc != ARGUMENTS || !take_window(argv + WINDOW, &at) || !take_number(argv[CLASS], UINT8_MAX, &of_class)) {
        fprintf(stderr, "usage: overlay TODAY BASELINE R0 C0 H W CLASS, with two house files\n");
        return 2;
    }
    if (!read_picture_by(lutniorad_sparse_read, argv[TODAYS_NAME], &today, &of_today) ||
        !read_picture(argv[BASE_NAME], &base, &of_base))
        return 2;
    if (of_today.refusal != LUTNIORAD_ANSWERED)
        return end_with("overlay", say_refused(of_today, LUTNIORAD_TODAY));
    if (of_base.refusal != LUTNIORAD_ANSWERED)
        return end_with("overlay", say_refused(of_base, LUTNIORAD_BASELINE));
    a = print_totals(at);
    if (a.refusal != LUTNIORAD_ANSWERED)
        return end_with("overlay", say_refused(a, a.first));
    return end_with("overlay", print_blocks(at, (uint8_t)of_class));
}
