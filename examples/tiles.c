/*
 * Says which squares a display has to draw for a class in a window, where none may be larger than a tile of side
 * 2^TILE: row, column and side of each. House file, tile, window and class are named on the command line.
 */
#include "common.h"

enum { NAME = 1, TILE, WINDOW, CLASS = WINDOW + 4, ARGUMENTS }; /* behind the program's name */

static picture lake;
static uint16_t border[LUTNIORAD_MOST_SIDE]; /* a wider window is outside every picture, and refused for that */

typedef struct {
    unsigned row, col, side;
} square;

/* Each digit of a key, from the most significant on, chooses a quadrant: 1 or 2 is north, 2 or 4 is east. */
static square square_of(uint32_t m, uint32_t key)
{
    square s = {0, 0, 1u << m};
    uint32_t power = 1;
    for (uint32_t i = 1; i < m; i++)
        power *= 5;
    for (; key > 0; key %= power, power /= 5) {
        uint32_t digit = key / power;
        s.side /= 2;
        s.row += digit > 2 ? s.side : 0;
        s.col += digit % 2 == 0 ? s.side : 0;
    }
    return s;
}

static lutniorad_answer ask(uint32_t tile, window at, uint8_t of_class, uint32_t *keys, size_t n)
{
    return lutniorad_select_tiled(lake.m, tile, lake.keys, lake.q, lake.classes, lake.q, at.r0, at.c0, at.h, at.w,
                                  of_class, border, LUTNIORAD_MOST_SIDE, keys, n);
}

/* Asked with no room at all, the library says how much it needs. */
static int print_squares(uint32_t tile, window at, uint8_t of_class)
{
    uint32_t none[1], *keys = none;
    lutniorad_answer a = ask(tile, at, of_class, none, 0);
    if (a.refusal == LUTNIORAD_SHORT_ROOM) {
        size_t needed = a.place;
        keys = (uint32_t *)malloc(needed * sizeof *keys);
        if (keys == NULL) {
            fprintf(stderr, "tiles: no memory for %zu keys\n", needed);
            return 2;
        }
        a = ask(tile, at, of_class, keys, needed);
    }
    for (uint32_t i = 0; a.refusal == LUTNIORAD_ANSWERED && i < a.first; i++) {
        square s = square_of(lake.m, keys[i]);
        printf("row %u, column %u, side %u\n", s.row, s.col, s.side);
    }
    if (keys != none)
        free(keys);
    if (a.refusal == LUTNIORAD_ANSWERED)
        return 0;
    say_refusal(stdout, a);
    return 1;
}

int main(int argc, char **argv)
{
    window at;
    unsigned long tile, of_class;
    lutniorad_answer a;
    if (argc != ARGUMENTS || !take_number(argv[TILE], UINT32_MAX, &tile) || !take_window(argv + WINDOW, &at) ||
        !take_number(argv[CLASS], UINT8_MAX, &of_class)) {
        fprintf(stderr, "usage: tiles FILE TILE R0 C0 H W CLASS, with a house file\n");
        return 2;
    }
    if (!read_picture(argv[NAME], &lake, &a))
        return 2;
    if (a.refusal != LUTNIORAD_ANSWERED) {
        say_refusal(stdout, a);
        return end_with("tiles", 1);
    }
    return end_with("tiles", print_squares((uint32_t)tile, at, (uint8_t)of_class));
}
