/*
 * Says why a record or a maximal block is on a window's list of openings, or is not. House file and window are named on
 * the command line, then the word `record` and an index, or the word `block` and a key.
 */
#include "common.h"

#include <string.h>

enum { NAME = 1, WINDOW, KIND = WINDOW + 4, NUMBER, ARGUMENTS }; /* behind the program's name */

static picture lake;
static uint16_t border[LUTNIORAD_MOST_SIDE]; /* a wider window is outside every picture, and refused for that */

static int is_record(const char *kind)
{
    return strcmp(kind, "record") == 0;
}

static int is_block(const char *kind)
{
    return strcmp(kind, "block") == 0;
}

static lutniorad_reason ask(window at, const char *kind, uint32_t number)
{
    if (is_record(kind))
        return lutniorad_why_record(lake.m, lake.keys, lake.q, lake.classes, lake.q, at.r0, at.c0, at.h, at.w, number,
                                    border, LUTNIORAD_MOST_SIDE);
    return lutniorad_why_block(lake.m, lake.keys, lake.q, lake.classes, lake.q, at.r0, at.c0, at.h, at.w, number,
                               border, LUTNIORAD_MOST_SIDE);
}

static const char *side(uint32_t said)
{
    switch (said) {
    case LUTNIORAD_NORTH:
        return "north";
    case LUTNIORAD_SOUTH:
        return "south";
    case LUTNIORAD_WEST:
        return "west";
    default: /* LUTNIORAD_EAST */
        return "east";
    }
}

static void print_reason(const char *kind, unsigned long number, lutniorad_reason why)
{
    printf("%s %lu ", kind, number);
    switch (why.said) {
    case LUTNIORAD_HANDED_OUT:
        printf("is handed out by opening %u\n", (unsigned)why.opening);
        break;
    case LUTNIORAD_OPENED:
        printf("is opened, as opening %u\n", (unsigned)why.opening);
        break;
    case LUTNIORAD_SKIPPED:
        printf("is skipped: it lies in record %u, which opening %u handed out\n", (unsigned)why.record,
               (unsigned)why.opening);
        break;
    default: /* it is one of the sides */
        printf("lies %s of the window\n", side(why.said));
    }
}

int main(int argc, char **argv)
{
    window at;
    unsigned long number;
    lutniorad_answer a;
    lutniorad_reason why = {0, 0, 0, 0, 0};
    if (argc != ARGUMENTS || !take_window(argv + WINDOW, &at) || !(is_record(argv[KIND]) || is_block(argv[KIND])) ||
        !take_number(argv[NUMBER], UINT32_MAX, &number)) {
        fprintf(stderr, "usage: why FILE R0 C0 H W record INDEX, or block KEY, with a house file\n");
        return 2;
    }
    if (!read_picture(argv[NAME], &lake, &a))
        return 2;
    if (a.refusal == LUTNIORAD_ANSWERED) {
        why = ask(at, argv[KIND], (uint32_t)number);
        a.refusal = why.refusal;
        a.place = why.place;
    }
    if (a.refusal != LUTNIORAD_ANSWERED) {
        say_refusal(stdout, a);
        return end_with("why", 1);
    }
    print_reason(argv[KIND], number, why);
    return end_with("why", 0);
}
