/* Says of the house file named on the command line whether its map is sound. */
#include "common.h"

static picture lake;

int main(int argc, char **argv)
{
    lutniorad_answer a;
    if (argc != 2) {
        fprintf(stderr, "usage: check FILE, a house file\n");
        return 2;
    }
    if (!read_picture(argv[1], &lake, &a))
        return 2;
    if (a.refusal == LUTNIORAD_ANSWERED)
        a = lutniorad_check(lake.m, lake.keys, lake.q, lake.classes, lake.q);
    if (a.refusal != LUTNIORAD_ANSWERED) {
        say_refusal(stdout, a);
        return end_with("check", 1);
    }
    printf("sound: m %u, %u records\n", (unsigned)lake.m, (unsigned)lake.q);
    return end_with("check", 0);
}
