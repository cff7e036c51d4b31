/* Makes a map from pixels and writes it to standard output as a house file. That file is examples/lake.map. */
#include "common.h"

enum { M = 5, SIDE = 1 << M, MOST = SIDE * SIDE, FIVE_TO_M = 5 * 5 * 5 * 5 * 5 };
enum { CLEAR, SCUM, WEED, SHORE }; /* the classes of this lake, beside LUTNIORAD_NOT_SEEN */

/* Clear water is a dot, scum s, weed w, what the camera did not see a dash, and the shore #. */
static const char drawing[SIDE][SIDE + 1] = {
    "################################",
    "################################",
    "########............############",
    "######................##########",
    "####ww..............ss..########",
    "####ww............ssss..########",
    "##ww....ssss......ssss....######",
    "##ww..ssssssss....ssss....######",
    "##....ssssssssss............####",
    "##....ssssssssss............####",
    "##......ssssssss..........--####",
    "##........ssssss........----####",
    "####......ssss........------####",
    "####..................------####",
    "######..................----####",
    "######....................--####",
    "########....................####",
    "########....................####",
    "##########....wwww..........####",
    "##########..wwwwwwww........####",
    "########....wwwwwwww..........##",
    "########....wwwwww............##",
    "######........ww........ss....##",
    "######................ssss....##",
    "######..............ssssss....##",
    "######..............ssss......##",
    "########............ss......####",
    "########....................####",
    "##########................######",
    "############............########",
    "################################",
    "################################",
};

static uint32_t keys[MOST], q;
static uint8_t classes[MOST], file[LUTNIORAD_FILE_BYTES(MOST)];

static uint8_t class_of(char pixel)
{
    switch (pixel) {
    case '.':
        return CLEAR;
    case 's':
        return SCUM;
    case 'w':
        return WEED;
    case '#':
        return SHORE;
    default:
        return LUTNIORAD_NOT_SEEN;
    }
}

static int is_of_one_class(int row, int column, int side)
{
    for (int r = row; r < row + side; r++)
        for (int c = column; c < column + side; c++)
            if (drawing[r][c] != drawing[row][column])
                return 0;
    return 1;
}

/* A block of one class is a record; any other is cut in four. `unit` is 5^e for a block of side 2^e. */
static void add_block(int row, int column, int side, uint32_t key, uint32_t unit)
{
    if (is_of_one_class(row, column, side)) {
        keys[q] = key;
        classes[q++] = class_of(drawing[row][column]);
        return;
    }
    side /= 2;
    unit /= 5;
    add_block(row, column, side, key + unit, unit);
    add_block(row, column + side, side, key + 2 * unit, unit);
    add_block(row + side, column, side, key + 3 * unit, unit);
    add_block(row + side, column + side, side, key + 4 * unit, unit);
}

int main(void)
{
    add_block(0, 0, SIDE, 0, FIVE_TO_M);
    lutniorad_answer a = lutniorad_write(M, keys, q, classes, q, file, sizeof file);
    if (a.refusal != LUTNIORAD_ANSWERED) {
        say_refusal(stderr, a);
        return 1;
    }
    fwrite(file, 1, a.first, stdout);
    return end_with("lake", 0);
}
