/*
 * The loop of an acquisition: of each picture, how much scum is in three windows. The house files named on the command
 * line stand for what a camera delivers, one after another.
 *
 * Standard output gets a line for each window and picture, and standard error the reason where a picture gives no
 * answer. Then the last answers stay, and their lines say OLD, and by how many pictures. That stands in front of the
 * numbers, so that whoever doses by the number behind the name finds none.
 *
 * The status is 0 where every picture was taken; 1 where some were not; 2 where none was named, or output failed, which
 * ends the program; and 3 where the program itself is wrong, which ends it too, as no other picture would help.
 */
#include "common.h"

#include <string.h>

enum { SCUM = 1, WINDOWS = 3 };

/*
 * The windows are drawn on pictures of this m. On a larger one they would be answered too, and for another part of the
 * lake: only this program can see that.
 */
enum { M = 5 };
static const char *const names[WINDOWS] = {"inlet", "middle", "intake"};
static const window windows[WINDOWS] = {{6, 4, 8, 14}, {12, 8, 10, 16}, {20, 18, 8, 12}};

/* All that is ever lent, again for each picture. The camera writes elsewhere: what is read here is a copy. */
static picture lake;
static uint16_t border[LUTNIORAD_MOST_SIDE];
static uint32_t totals[LUTNIORAD_CLASSES];

typedef struct {
    uint32_t scum, not_seen, pixels;
} counts;

static counts last[WINDOWS]; /* of the last picture that was taken */
static int has_last;
static unsigned long age; /* how many pictures were not taken since */

typedef enum { TAKEN, NOT_TAKEN, WRONG_PROGRAM } outcome;

static outcome outcome_of(const char *name, lutniorad_answer a)
{
    if (a.refusal == LUTNIORAD_ANSWERED)
        return TAKEN;
    fprintf(stderr, "%s: ", name);
    say_refusal(stderr, a);
    switch (a.refusal) {
    case LUTNIORAD_BAD_LAYOUT:
    case LUTNIORAD_BAD_M:
    case LUTNIORAD_BAD_COUNT:
        fprintf(stderr, "%s: no house file: was it cut or changed on its way?\n", name);
        return NOT_TAKEN;
    case LUTNIORAD_BAD_KEY:
    case LUTNIORAD_OVERLAP:
    case LUTNIORAD_GAP:
        fprintf(stderr, "%s: a house file with a broken map: what made it is wrong\n", name);
        return NOT_TAKEN;
    case LUTNIORAD_BAD_WINDOW:
    case LUTNIORAD_SHORT_BORDER:
    case LUTNIORAD_SHORT_ROOM:
    default: /* no other comes from these calls */
        fprintf(stderr, "acquire: this program is wrong, and not the picture\n");
        return WRONG_PROGRAM;
    }
}

/* All windows are answered from this picture, or `last` stays as it was. */
static lutniorad_answer ask(void)
{
    counts now[WINDOWS];
    lutniorad_answer a = {LUTNIORAD_ANSWERED, 0, 0, 0};
    for (int i = 0; i < WINDOWS; i++) {
        const window *at = &windows[i];
        a = lutniorad_report(lake.m, lake.keys, lake.q, lake.classes, lake.q, at->r0, at->c0, at->h, at->w, border,
                             LUTNIORAD_MOST_SIDE, totals, LUTNIORAD_CLASSES);
        if (a.refusal != LUTNIORAD_ANSWERED)
            return a;
        now[i].scum = totals[SCUM];
        now[i].not_seen = totals[LUTNIORAD_NOT_SEEN];
        now[i].pixels = a.first;
    }
    memcpy(last, now, sizeof last);
    return a;
}

static outcome take(const char *name)
{
    lutniorad_answer a;
    if (!read_picture(name, &lake, &a))
        return NOT_TAKEN;
    if (a.refusal == LUTNIORAD_ANSWERED && lake.m != M) {
        fprintf(stderr, "%s: a picture of m %u, and the windows are drawn for m %d\n", name, (unsigned)lake.m, M);
        return NOT_TAKEN;
    }
    if (a.refusal == LUTNIORAD_ANSWERED)
        a = ask();
    return outcome_of(name, a);
}

static void print_answer(const char *name, const counts *of)
{
    if (!has_last) {
        printf("%s: no answer yet\n", name);
        return;
    }
    printf("%s: ", name);
    if (age > 0)
        printf("OLD by %lu: ", age);
    printf("%u of %u pixels are scum, %u were not seen\n", (unsigned)of->scum, (unsigned)of->pixels,
           (unsigned)of->not_seen);
}

int main(int argc, char **argv)
{
    int status = 0;
    if (argc < 2) {
        fprintf(stderr, "usage: acquire FILE..., house files\n");
        return 2;
    }
    for (int i = 1; i < argc && status != 3; i++) {
        outcome how = take(argv[i]);
        has_last = has_last || how == TAKEN;
        age = how == TAKEN ? 0 : age + 1;
        status = how == WRONG_PROGRAM ? 3 : how == NOT_TAKEN ? 1 : status;
        for (int k = 0; k < WINDOWS; k++)
            print_answer(names[k], &last[k]);
        if (!came_out("acquire")) /* each time: a line that is late is as bad as an old one */
            return 2;
    }
    return status;
}
