/*
 * Says how many pixels of a window are of one class, and how many were not seen, as these may be of it too. House file,
 * window and class are named on the command line.
 */
#include "common.h"

enum { NAME = 1, WINDOW, CLASS = WINDOW + 4, ARGUMENTS }; /* behind the program's name */

static picture lake;
static uint16_t border[LUTNIORAD_MOST_SIDE]; /* a wider window is outside every picture, and refused for that */
static uint32_t totals[LUTNIORAD_CLASSES];

static void print_share(unsigned long of_class, uint32_t pixels)
{
    uint32_t found = totals[of_class], not_seen = totals[LUTNIORAD_NOT_SEEN];
    printf("%u of %u pixels, %u per mille", (unsigned)found, (unsigned)pixels,
           (unsigned)((uint64_t)found * 1000 / pixels));
    if (not_seen > 0 && of_class != LUTNIORAD_NOT_SEEN)
        printf(", %u not seen", (unsigned)not_seen);
    puts("");
}

int main(int argc, char **argv)
{
    window at;
    unsigned long of_class;
    lutniorad_answer a;
    if (argc != ARGUMENTS || !take_window(argv + WINDOW, &at) || !take_number(argv[CLASS], UINT8_MAX, &of_class)) {
        fprintf(stderr, "usage: scum FILE R0 C0 H W CLASS, with a house file\n");
        return 2;
    }
    if (!read_picture(argv[NAME], &lake, &a))
        return 2;
    if (a.refusal == LUTNIORAD_ANSWERED)
        a = lutniorad_report(lake.m, lake.keys, lake.q, lake.classes, lake.q, at.r0, at.c0, at.h, at.w, border,
                             LUTNIORAD_MOST_SIDE, totals, LUTNIORAD_CLASSES);
    if (a.refusal != LUTNIORAD_ANSWERED) {
        say_refusal(stdout, a);
        return end_with("scum", 1);
    }
    print_share(of_class, a.first);
    return end_with("scum", 0);
}
