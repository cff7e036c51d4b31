/*
 * Leaves the records of one class out of a map, as for a slow link, writes what is left as a file and reads that back.
 * Says what it saves, and of a window, on the complete map and on the sparse one, whether a class is there, how many
 * pixels have it, and in how many blocks they are listed. House file, the class to leave out, window and class are
 * named on the command line.
 *
 * The file does not say which class was left out: whoever reads it has to know.
 */
#include "common.h"

enum { NAME = 1, BACKGROUND, WINDOW, CLASS = WINDOW + 4, ARGUMENTS }; /* behind the program's name */

static picture lake, sparse;
static uint16_t border[LUTNIORAD_MOST_SIDE]; /* a wider window is outside every picture, and refused for that */
static uint32_t totals[LUTNIORAD_CLASSES];

/* What is left of the lake goes through a file, which stays in memory here. The answer is that of reading it. */
static lutniorad_answer leave_out(uint8_t background)
{
    lutniorad_answer a;
    sparse.q = 0;
    for (uint32_t i = 0; i < lake.q; i++)
        if (lake.classes[i] != background) {
            sparse.keys[sparse.q] = lake.keys[i];
            sparse.classes[sparse.q++] = lake.classes[i];
        }
    a = lutniorad_sparse_write(lake.m, sparse.keys, sparse.q, sparse.classes, sparse.q, sparse.file,
                               sizeof sparse.file);
    if (a.refusal == LUTNIORAD_ANSWERED)
        a = lutniorad_sparse_read(sparse.file, a.first, sparse.keys, LUTNIORAD_MOST_RECORDS, sparse.classes,
                                  LUTNIORAD_MOST_RECORDS);
    sparse.m = a.first;
    sparse.q = a.second;
    return a;
}

/* What is said of a map. Select is asked with no room: its answer or its refusal says how many keys there are. */
typedef struct {
    lutniorad_answer exist, report, select;
    uint32_t pixels;
} said;

static said ask_complete(window at, uint8_t of_class)
{
    uint32_t none[1];
    said s;
    s.exist = lutniorad_exist(lake.m, lake.keys, lake.q, lake.classes, lake.q, at.r0, at.c0, at.h, at.w, of_class,
                              border, LUTNIORAD_MOST_SIDE);
    s.report = lutniorad_report(lake.m, lake.keys, lake.q, lake.classes, lake.q, at.r0, at.c0, at.h, at.w, border,
                                LUTNIORAD_MOST_SIDE, totals, LUTNIORAD_CLASSES);
    s.pixels = totals[of_class];
    s.select = lutniorad_select(lake.m, lake.keys, lake.q, lake.classes, lake.q, at.r0, at.c0, at.h, at.w, of_class,
                                border, LUTNIORAD_MOST_SIDE, none, 0);
    return s;
}

static said ask_sparse(uint8_t background, window at, uint8_t of_class)
{
    uint32_t none[1];
    said s;
    s.exist = lutniorad_sparse_exist(sparse.m, background, sparse.keys, sparse.q, sparse.classes, sparse.q, at.r0,
                                     at.c0, at.h, at.w, of_class, border, LUTNIORAD_MOST_SIDE);
    s.report = lutniorad_sparse_report(sparse.m, background, sparse.keys, sparse.q, sparse.classes, sparse.q, at.r0,
                                       at.c0, at.h, at.w, border, LUTNIORAD_MOST_SIDE, totals, LUTNIORAD_CLASSES);
    s.pixels = totals[of_class];
    s.select = lutniorad_sparse_select(sparse.m, sparse.m, background, sparse.keys, sparse.q, sparse.classes, sparse.q,
                                       at.r0, at.c0, at.h, at.w, of_class, border, LUTNIORAD_MOST_SIDE, none, 0);
    return s;
}

static unsigned keys_of(lutniorad_answer select)
{
    return (unsigned)(select.refusal == LUTNIORAD_SHORT_ROOM ? select.place : select.first);
}

static void print_row(const char *name, unsigned of_complete, unsigned of_sparse)
{
    printf("%-8s %10u %10u\n", name, of_complete, of_sparse);
}

/* Returns the status. What refuses report, the map or the window, refuses the other calls too. */
static int print_both(uint8_t background, window at, uint8_t of_class)
{
    said complete = ask_complete(at, of_class), left = ask_sparse(background, at, of_class);
    if (complete.report.refusal != LUTNIORAD_ANSWERED) {
        say_refusal(stdout, complete.report);
        return 1;
    }
    printf("%-8s %10s %10s\n", "", "complete", "sparse");
    print_row("records", (unsigned)lake.q, (unsigned)sparse.q);
    print_row("bytes", (unsigned)LUTNIORAD_FILE_BYTES(lake.q), (unsigned)LUTNIORAD_FILE_BYTES(sparse.q));
    printf("%-8s %10s %10s\n", "exists", existence(complete.exist.first), existence(left.exist.first));
    print_row("pixels", (unsigned)complete.pixels, (unsigned)left.pixels);
    print_row("blocks", keys_of(complete.select), keys_of(left.select));
    return 0;
}

int main(int argc, char **argv)
{
    window at;
    unsigned long background, of_class;
    lutniorad_answer a;
    if (argc != ARGUMENTS || !take_number(argv[BACKGROUND], UINT8_MAX, &background) ||
        !take_window(argv + WINDOW, &at) || !take_number(argv[CLASS], UINT8_MAX, &of_class)) {
        fprintf(stderr, "usage: sparse FILE BACKGROUND R0 C0 H W CLASS, with a house file\n");
        return 2;
    }
    if (!read_picture(argv[NAME], &lake, &a))
        return 2;
    if (a.refusal == LUTNIORAD_ANSWERED)
        a = leave_out((uint8_t)background);
    if (a.refusal != LUTNIORAD_ANSWERED) {
        say_refusal(stdout, a);
        return end_with("sparse", 1);
    }
    return end_with("sparse", print_both((uint8_t)background, at, (uint8_t)of_class));
}
