/*
 * Says what may be given to a partner who has one window and nothing else of the map: how many openings and records the
 * window has; of each opening the key of its block, and its records by key and class; and how many pixels of the window
 * are of each class. House file and window are named on the command line.
 *
 * It says the same, byte for byte, of all sound maps of one m that have the same records with a pixel in the window,
 * whatever they have elsewhere. That is proved of what opening and report answer, but for one number: the index of an
 * opening's first record tells how many records of the map come before. So the index is not said, and the records stand
 * in its place. A record that sticks out of the window is said whole, by its key.
 */
#include "common.h"

enum { NAME = 1, WINDOW, ARGUMENTS = WINDOW + 4 }; /* behind the program's name */
enum { KEY, FIRST, COUNT, CELLS };                 /* of an opening */

static picture lake;
static uint16_t border[LUTNIORAD_MOST_SIDE]; /* a wider window is outside every picture, and refused for that */
static uint32_t openings[LUTNIORAD_OPEN_CELLS(LUTNIORAD_MOST_SIDE, LUTNIORAD_MOST_SIDE)];
static uint32_t totals[LUTNIORAD_CLASSES];

static lutniorad_answer open_window(window at)
{
    return lutniorad_open(lake.m, lake.keys, lake.q, lake.classes, lake.q, at.r0, at.c0, at.h, at.w, border,
                          LUTNIORAD_MOST_SIDE, openings,
                          LUTNIORAD_OPEN_CELLS(LUTNIORAD_MOST_SIDE, LUTNIORAD_MOST_SIDE));
}

static lutniorad_answer report_window(window at)
{
    return lutniorad_report(lake.m, lake.keys, lake.q, lake.classes, lake.q, at.r0, at.c0, at.h, at.w, border,
                            LUTNIORAD_MOST_SIDE, totals, LUTNIORAD_CLASSES);
}

static void print_opening(const uint32_t *opening)
{
    const uint32_t end = opening[FIRST] + opening[COUNT];
    printf("block %u\n", (unsigned)opening[KEY]);
    for (uint32_t i = opening[FIRST]; i < end; i++)
        printf("  record %u, class %u\n", (unsigned)lake.keys[i], (unsigned)lake.classes[i]);
}

static void print_totals(void)
{
    for (int k = 0; k < LUTNIORAD_CLASSES; k++)
        if (totals[k] > 0)
            printf("class %d, pixels %u\n", k, (unsigned)totals[k]);
}

/* Returns the status. Both calls have answered before anything is said, so that nothing is said by halves. */
static int give(window at)
{
    lutniorad_answer opened = open_window(at);
    lutniorad_answer reported = opened.refusal == LUTNIORAD_ANSWERED ? report_window(at) : opened;
    if (reported.refusal != LUTNIORAD_ANSWERED) {
        say_refusal(stdout, reported);
        return 1;
    }
    printf("openings %u, records %u\n", (unsigned)opened.first, (unsigned)opened.second);
    for (uint32_t i = 0; i < opened.first; i++)
        print_opening(openings + CELLS * i);
    print_totals();
    return 0;
}

int main(int argc, char **argv)
{
    window at;
    lutniorad_answer a;
    if (argc != ARGUMENTS || !take_window(argv + WINDOW, &at)) {
        fprintf(stderr, "usage: partner FILE R0 C0 H W, with a house file\n");
        return 2;
    }
    if (!read_picture(argv[NAME], &lake, &a))
        return 2;
    if (a.refusal != LUTNIORAD_ANSWERED) {
        say_refusal(stdout, a);
        return end_with("partner", 1);
    }
    return end_with("partner", give(at));
}
