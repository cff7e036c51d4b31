/*
 * Says whether some pixel of a picture is of one class. House file and class are named on the command line. Only
 * LUTNIORAD_NO may be taken as "none there": pixels that the camera did not see may have the class.
 */
#include "common.h"

static picture lake;
static uint16_t border[LUTNIORAD_MOST_SIDE]; /* no picture has more columns */

int main(int argc, char **argv)
{
    unsigned long of_class;
    lutniorad_answer a;
    if (argc != 3 || !take_number(argv[2], UINT8_MAX, &of_class)) {
        fprintf(stderr, "usage: clear FILE CLASS, with a house file\n");
        return 2;
    }
    if (!read_picture(argv[1], &lake, &a))
        return 2;
    uint16_t side = (uint16_t)(1 << lake.m); /* m is at most LUTNIORAD_MOST_M, and 0 where the file is refused */
    if (a.refusal == LUTNIORAD_ANSWERED)
        a = lutniorad_exist(lake.m, lake.keys, lake.q, lake.classes, lake.q, 0, 0, side, side, (uint8_t)of_class,
                            border, LUTNIORAD_MOST_SIDE);
    if (a.refusal != LUTNIORAD_ANSWERED) {
        say_refusal(stdout, a);
        return end_with("clear", 1);
    }
    puts(existence(a.first));
    return end_with("clear", 0);
}
