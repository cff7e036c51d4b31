/*
 * Mends a house file whose map may be broken, as after a fault of the radio: says which records are dropped and which
 * blocks are filled in as not seen, and what comes of it. If a second file is named on the command line, the map so
 * made is written to it.
 *
 * The layout of the file must be right. Its keys may be any numbers, and it may have no record.
 */
#include "common.h"

enum { NAME = 1, MENDED_NAME, MOST_ARGUMENTS }; /* behind the program's name */
enum { INDEX_OR_KEY, NUMBER, CELLS };           /* of an entry in the log */

static picture lake, mended;
static uint32_t entries[LUTNIORAD_SALVAGE_LOG_CELLS(LUTNIORAD_MOST_RECORDS)];

static lutniorad_answer mend(void)
{
    lutniorad_answer a = lutniorad_salvage(lake.m, lake.keys, lake.q, lake.classes, lake.q, mended.keys,
                                           LUTNIORAD_MOST_RECORDS, mended.classes, LUTNIORAD_MOST_RECORDS, entries,
                                           LUTNIORAD_SALVAGE_LOG_CELLS(LUTNIORAD_MOST_RECORDS));
    mended.m = lake.m;
    mended.q = a.first;
    return a;
}

static void print_entry(const uint32_t *entry)
{
    const unsigned of = (unsigned)entry[INDEX_OR_KEY];
    switch (entry[NUMBER]) {
    case LUTNIORAD_BAD_KEY:
        printf("record %u is dropped: its key %u names no block\n", of, (unsigned)lake.keys[of]);
        break;
    case LUTNIORAD_OVERLAP:
        printf("record %u is dropped: its block %u starts before the last one kept ended\n", of,
               (unsigned)lake.keys[of]);
        break;
    default: /* LUTNIORAD_GAP */
        printf("block %u is filled in as not seen\n", of);
    }
}

static void print_log(uint32_t n)
{
    unsigned filled = 0;
    for (uint32_t i = 0; i < n; i++) {
        print_entry(entries + CELLS * i);
        filled += entries[CELLS * i + NUMBER] == LUTNIORAD_GAP;
    }
    printf("%s: m %u, %u records", n == 0 ? "sound" : "mended", (unsigned)mended.m, (unsigned)mended.q);
    if (n > 0)
        printf(", %u dropped, %u filled in", (unsigned)n - filled, filled);
    printf("\n");
}

/* False where that cannot be done, which is said on standard error. A map that was mended is never refused. */
static int write_mended(const char *name)
{
    lutniorad_answer a = lutniorad_write(mended.m, mended.keys, mended.q, mended.classes, mended.q, mended.file,
                                         sizeof mended.file);
    FILE *out = fopen(name, "wb");
    int written = out != NULL && fwrite(mended.file, 1, a.first, out) == a.first;
    if (out != NULL && fclose(out) != 0)
        written = 0;
    if (!written)
        fprintf(stderr, "%s: cannot be written\n", name);
    return written;
}

int main(int argc, char **argv)
{
    lutniorad_answer a;
    if (argc <= NAME || argc > MOST_ARGUMENTS) {
        fprintf(stderr, "usage: salvage FILE [MENDED], with a house file that may be broken\n");
        return 2;
    }
    if (!read_picture_by(lutniorad_sparse_read, argv[NAME], &lake, &a))
        return 2;
    if (a.refusal == LUTNIORAD_ANSWERED)
        a = mend();
    if (a.refusal != LUTNIORAD_ANSWERED) {
        say_refusal(stdout, a);
        return end_with("salvage", 1);
    }
    print_log(a.second);
    if (argc > MENDED_NAME && !write_mended(argv[MENDED_NAME]))
        return end_with("salvage", 2);
    return end_with("salvage", 0);
}
