/*
 * Holds what the header names against the library: each refusal against a call that is refused by it, the sentences,
 * the two maps of an overlay, what is said of records and blocks, the limits, and the room that is always enough. Says
 * each thing that is not so; the status is 0 where all is.
 */
#include "even.h"

#include <stdbool.h>
#include <stdio.h>
#include <stdlib.h>
#include <string.h>

#define COUNT(array) (sizeof(array) / sizeof *(array))

enum { ENOUGH = 20 }; /* to see what is wrong */
static int wrong;

static void hold(bool holds, const char *name, const char *otherwise)
{
    if (holds)
        return;
    printf("%s: %s\n", name, otherwise);
    if (++wrong == ENOUGH)
        exit(1);
}

static void hold_answer(lutniorad_answer got, uint32_t refusal, uint32_t place, uint32_t first, const char *name)
{
    char otherwise[200];
    snprintf(otherwise, sizeof otherwise, "refusal %u, place %u, first %u, and it should be %u, %u, %u",
             (unsigned)got.refusal, (unsigned)got.place, (unsigned)got.first, (unsigned)refusal, (unsigned)place,
             (unsigned)first);
    hold(got.refusal == refusal && got.place == place && got.first == first, name, otherwise);
}

/* ---- Refusals ---- */

/* What a call is handed. As it is begun, each call is answered; each refusal comes from one thing that is spoiled. */
enum { Q = 7, WIDTH = 3 };
static uint32_t m, tile, record, key, keys[Q], totals[LUTNIORAD_CLASSES];
static uint16_t r0, border[WIDTH];
static const uint16_t list[] = {0, 1, 3, WIDTH, 3, 0, 1, 1};
static uint8_t classes[Q], file[LUTNIORAD_FILE_BYTES(Q)];
static uint64_t table[LUTNIORAD_MONTH_CELLS];
static size_t n_keys, n_classes, n_list, n_border, n_totals, n_mended, n_log, n_today;

/* Today's map lies over that one: three of its pixels have other classes. */
enum { TODAYS_Q = 3 };
static uint32_t m_today, keys_today[TODAYS_Q];
static const uint8_t classes_today[TODAYS_Q] = {3, 2, 2};

static void begin(void)
{
    static const uint32_t some_keys[Q] = {5, 11, 12, 13, 14, 15, 20};
    static const uint8_t some_classes[Q] = {1, 2, 2, 3, 1, 1, 2};
    static const uint32_t changed_keys[TODAYS_Q] = {9, 13, 14};
    m = tile = m_today = 2;
    record = Q - 1;
    key = 7;
    r0 = 0;
    memcpy(keys, some_keys, sizeof keys);
    memcpy(classes, some_classes, sizeof classes);
    memcpy(keys_today, changed_keys, sizeof keys_today);
    n_keys = n_classes = Q;
    n_today = TODAYS_Q;
    n_list = COUNT(list);
    n_border = WIDTH;
    n_totals = LUTNIORAD_CLASSES;
    n_mended = Q;
    n_log = 2;
    lutniorad_write(m, keys, Q, classes, Q, file, sizeof file);
    lutniorad_month_clear(m, r0, 1, 3, WIDTH, table, COUNT(table));
}

static lutniorad_answer report(void)
{
    return lutniorad_report(m, keys, n_keys, classes, n_classes, r0, 1, 3, WIDTH, border, n_border, totals, n_totals);
}

static lutniorad_answer select_tiled(void)
{
    return lutniorad_select_tiled(m, tile, keys, n_keys, classes, n_classes, r0, 1, 3, WIDTH, 1, border, n_border,
                                  totals, n_totals);
}

static lutniorad_answer sparse_report(void)
{
    return lutniorad_sparse_report(m, 0, keys, n_keys, classes, n_classes, r0, 1, 3, WIDTH, border, n_border, totals,
                                   n_totals);
}

static lutniorad_answer sparse_open(void)
{
    return lutniorad_sparse_open(m, tile, keys, n_keys, classes, n_classes, r0, 1, 3, WIDTH, border, n_border, totals,
                                 n_totals);
}

static lutniorad_answer sparse_read(void)
{
    return lutniorad_sparse_read(file, sizeof file, keys, n_keys, classes, n_classes);
}

/* The first record is missing: it is filled in, and that is the only entry. */
static lutniorad_answer salvage(void)
{
    static uint32_t mended[Q], log_of_one[2];
    static uint8_t mended_classes[Q];
    return lutniorad_salvage(m, keys + 1, n_keys - 1, classes + 1, n_classes - 1, mended, n_mended, mended_classes,
                             n_mended, log_of_one, n_log);
}

static lutniorad_answer overlay_exist(void)
{
    return lutniorad_overlay_exist(m_today, keys_today, n_today, classes_today, TODAYS_Q, m, keys, n_keys, classes,
                                   n_classes, r0, 1, 3, WIDTH, 1, border, n_border);
}

static lutniorad_answer overlay_report(void)
{
    return lutniorad_overlay_report(m_today, keys_today, n_today, classes_today, TODAYS_Q, m, keys, n_keys, classes,
                                    n_classes, r0, 1, 3, WIDTH, border, n_border, totals, n_totals);
}

static lutniorad_answer overlay_select(void)
{
    return lutniorad_overlay_select(m_today, keys_today, n_today, classes_today, TODAYS_Q, m, keys, n_keys, classes,
                                    n_classes, r0, 1, 3, WIDTH, 1, border, n_border, totals, n_totals);
}

/* The first numbers of a part, in place of those of an answer. */
static lutniorad_answer overlay_part(void)
{
    lutniorad_part part = lutniorad_overlay_part(m_today, keys_today, n_today, classes_today, TODAYS_Q, m, keys, n_keys,
                                                 classes, n_classes, key);
    lutniorad_answer answer = {part.refusal, part.place, part.map, part.first};
    return answer;
}

static lutniorad_answer many(void)
{
    return lutniorad_windows(m, keys, n_keys, classes, n_classes, list, n_list, border, n_border, totals, n_totals);
}

/* The first numbers of a reason, in place of those of an answer. */
static lutniorad_answer as_answer(lutniorad_reason reason)
{
    lutniorad_answer answer = {reason.refusal, reason.place, reason.said, reason.record};
    return answer;
}

static lutniorad_answer why_record(void)
{
    return as_answer(
        lutniorad_why_record(m, keys, n_keys, classes, n_classes, r0, 1, 3, WIDTH, record, border, n_border));
}

static lutniorad_answer why_block(void)
{
    return as_answer(lutniorad_why_block(m, keys, n_keys, classes, n_classes, r0, 1, 3, WIDTH, key, border, n_border));
}

static lutniorad_answer read_file(void)
{
    return lutniorad_read(file, sizeof file, keys, n_keys, classes, n_classes);
}

static lutniorad_answer add(void)
{
    return lutniorad_month_add(m, keys, n_keys, classes, n_classes, border, n_border, table, COUNT(table));
}

static void no_such_m(void)
{
    m = LUTNIORAD_MOST_M + 1;
}

static void fewer_classes(void)
{
    n_classes = Q - 1;
}

static void key_of_no_block(void)
{
    keys[1] = 1;
}

static void block_twice(void)
{
    keys[2] = keys[1];
}

static void last_removed(void)
{
    n_keys = n_classes = Q - 1;
}

static void all_removed(void)
{
    n_keys = n_classes = 0;
}

static void sticks_out(void)
{
    r0 = 2;
}

static void short_border(void)
{
    n_border = WIDTH - 1;
}

static void short_totals(void)
{
    n_totals = LUTNIORAD_CLASSES - 1;
}

static void short_map(void)
{
    n_mended = Q - 1;
}

static void short_log(void)
{
    n_log = 1;
}

static void keys_elsewhere(void)
{
    file[12]++;
}

static void tile_beyond_picture(void)
{
    tile = m + 1;
}

static void record_beyond_map(void)
{
    record = Q;
}

static void block_around_window(void)
{
    key = 0;
}

static void list_cut_short(void)
{
    n_list = COUNT(list) - 1;
}

static void no_such_m_today(void)
{
    m_today = LUTNIORAD_MOST_M + 1;
}

static void fewer_keys_today(void)
{
    n_today = TODAYS_Q - 1;
}

static void key_of_no_block_today(void)
{
    keys_today[1] = 1;
}

static void block_twice_today(void)
{
    keys_today[2] = keys_today[1];
}

/* A map of one record, which is the picture whatever m is. */
static void baseline_of_another_m(void)
{
    m = 3;
    keys[0] = 0;
    n_keys = n_classes = 1;
}

static void key_of_none(void)
{
    key = 1;
}

static void table_of_another_m(void)
{
    lutniorad_month_clear(m + 1, r0, 1, 3, WIDTH, table, COUNT(table));
}

static void full_table(void)
{
    table[5] = LUTNIORAD_MOST_MAPS;
}

static void sum_of_no_map(void)
{
    table[8] = 1;
}

static const struct {
    uint32_t refusal, place;
    void (*spoil)(void);
    lutniorad_answer (*call)(void);
} refused[] = {
    {LUTNIORAD_BAD_M, 0, no_such_m, report},
    {LUTNIORAD_BAD_COUNT, 0, fewer_classes, report},
    {LUTNIORAD_BAD_KEY, 1, key_of_no_block, report},
    {LUTNIORAD_OVERLAP, 2, block_twice, report},
    {LUTNIORAD_GAP, Q - 1, last_removed, report},
    {LUTNIORAD_BAD_WINDOW, 0, sticks_out, report},
    {LUTNIORAD_SHORT_BORDER, WIDTH, short_border, report},
    {LUTNIORAD_SHORT_ROOM, LUTNIORAD_CLASSES, short_totals, report},
    {LUTNIORAD_BAD_LAYOUT, 12, keys_elsewhere, read_file},
    {LUTNIORAD_OTHER_M, 0, table_of_another_m, add},
    {LUTNIORAD_MONTH_FULL, 0, full_table, add},
    {LUTNIORAD_BAD_TILE, 0, tile_beyond_picture, select_tiled},
    {LUTNIORAD_NO_RECORD, 0, record_beyond_map, why_record},
    {LUTNIORAD_NOT_MAXIMAL, 0, block_around_window, why_block},
    {LUTNIORAD_BAD_WINDOW_LIST, 0, list_cut_short, many},
    {LUTNIORAD_BAD_TABLE, 0, sum_of_no_map, add},
    {LUTNIORAD_BAD_COUNT, 0, all_removed, report},
    {LUTNIORAD_BAD_M, 0, no_such_m, sparse_report},
    {LUTNIORAD_BAD_COUNT, 0, fewer_classes, sparse_report},
    {LUTNIORAD_BAD_KEY, 1, key_of_no_block, sparse_report},
    {LUTNIORAD_OVERLAP, 2, block_twice, sparse_report},
    {LUTNIORAD_BAD_WINDOW, 0, sticks_out, sparse_report},
    {LUTNIORAD_SHORT_BORDER, WIDTH, short_border, sparse_report},
    {LUTNIORAD_SHORT_ROOM, LUTNIORAD_CLASSES, short_totals, sparse_report},
    {LUTNIORAD_BAD_LAYOUT, 12, keys_elsewhere, sparse_read},
    {LUTNIORAD_BAD_TILE, 0, tile_beyond_picture, sparse_open},
    {LUTNIORAD_BAD_M, 0, no_such_m, salvage},
    {LUTNIORAD_BAD_COUNT, 0, fewer_classes, salvage},
    {LUTNIORAD_SHORT_ROOM, Q, short_map, salvage},
    {LUTNIORAD_SHORT_ROOM, 2, short_log, salvage},
    {LUTNIORAD_OTHER_M, 0, baseline_of_another_m, overlay_exist},
    {LUTNIORAD_BAD_WINDOW, 0, sticks_out, overlay_exist},
    {LUTNIORAD_SHORT_BORDER, WIDTH, short_border, overlay_exist},
    {LUTNIORAD_SHORT_ROOM, LUTNIORAD_CLASSES, short_totals, overlay_report},
    {LUTNIORAD_OTHER_M, 0, baseline_of_another_m, overlay_part},
    {LUTNIORAD_NO_BLOCK, 0, key_of_none, overlay_part},
};

#define NAMED(name, number, sentence) {#name, number, sentence},
static const struct {
    const char *name;
    uint32_t number;
    const char *sentence;
} named[] = {LUTNIORAD_REFUSALS(NAMED)};

/* What the window program alone gives is held by its cases: tests/program.c takes its number from the header. */
static void hold_refusal(size_t i)
{
    bool has_call = named[i].number == LUTNIORAD_LEFT_OVER;
    for (size_t k = 0; k < COUNT(refused); k++)
        if (refused[k].refusal == named[i].number) {
            begin();
            hold(refused[k].call().refusal == LUTNIORAD_ANSWERED, named[i].name, "the call is refused unspoiled");
            begin();
            refused[k].spoil();
            hold_answer(refused[k].call(), named[i].number, refused[k].place, 0, named[i].name);
            has_call = true;
        }
    hold(has_call, named[i].name, "no call here is refused by it");
}

static void hold_sentence(size_t i)
{
    const char *name = named[i].name, *sentence = named[i].sentence;
    hold(strcmp(sentence, lutniorad_sentence(named[i].number)) == 0, name, "it is said by another sentence");
    hold(sentence[0] != '\0' && sentence[strlen(sentence) - 1] != '.', name, "its sentence is empty or ends in a stop");
    hold(strcmp(sentence, lutniorad_sentence(LUTNIORAD_ANSWERED)) != 0, name, "it has the sentence of 0");
    for (size_t k = 0; k < i; k++)
        hold(strcmp(sentence, named[k].sentence) != 0, name, "another has its sentence");
}

static bool is_named(uint32_t number)
{
    for (size_t i = 0; i < COUNT(named); i++)
        if (named[i].number == number)
            return true;
    return number == LUTNIORAD_ANSWERED;
}

static void hold_refusals(void)
{
    const char *none = lutniorad_sentence(UINT32_MAX);
    for (size_t i = 0; i < COUNT(named); i++) {
        hold_refusal(i);
        hold_sentence(i);
    }
    for (uint32_t number = 0; number <= 300; number++)
        hold((strcmp(lutniorad_sentence(number), none) == 0) != is_named(number), "lutniorad_sentence",
             "a number without a name has a sentence of its own, or one with a name has none");
}

/* A map with a gap, or without a record, is refused as that and taken as a sparse one. */
static void hold_sparse(void)
{
    static void (*const removed[])(void) = {last_removed, all_removed};
    for (size_t i = 0; i < COUNT(removed); i++) {
        begin();
        removed[i]();
        hold(report().refusal != LUTNIORAD_ANSWERED, "LUTNIORAD_GAP", "a map that is not complete is taken");
        hold_answer(sparse_report(), 0, 0, 3 * WIDTH, "a sparse map");
    }
}

/* ---- Overlays ---- */

/* Whose map a call on an overlay is refused for. */
static const struct {
    const char *name;
    uint32_t whose, refusal, place;
    void (*spoil)(void);
} refused_for[] = {
    {"LUTNIORAD_TODAY", LUTNIORAD_TODAY, LUTNIORAD_BAD_M, 0, no_such_m_today},
    {"LUTNIORAD_TODAY", LUTNIORAD_TODAY, LUTNIORAD_BAD_COUNT, 0, fewer_keys_today},
    {"LUTNIORAD_TODAY", LUTNIORAD_TODAY, LUTNIORAD_BAD_KEY, 1, key_of_no_block_today},
    {"LUTNIORAD_TODAY", LUTNIORAD_TODAY, LUTNIORAD_OVERLAP, 2, block_twice_today},
    {"LUTNIORAD_BASELINE", LUTNIORAD_BASELINE, LUTNIORAD_BAD_M, 0, no_such_m},
    {"LUTNIORAD_BASELINE", LUTNIORAD_BASELINE, LUTNIORAD_BAD_COUNT, 0, fewer_classes},
    {"LUTNIORAD_BASELINE", LUTNIORAD_BASELINE, LUTNIORAD_BAD_COUNT, 0, all_removed},
    {"LUTNIORAD_BASELINE", LUTNIORAD_BASELINE, LUTNIORAD_BAD_KEY, 1, key_of_no_block},
    {"LUTNIORAD_BASELINE", LUTNIORAD_BASELINE, LUTNIORAD_OVERLAP, 2, block_twice},
    {"LUTNIORAD_BASELINE", LUTNIORAD_BASELINE, LUTNIORAD_GAP, Q - 1, last_removed},
};

/* And whose map a part is of, by a key. */
static const struct {
    const char *name;
    uint32_t key, whose;
} parts[] = {
    {"LUTNIORAD_TODAY", 10, LUTNIORAD_TODAY},
    {"LUTNIORAD_BASELINE", 15, LUTNIORAD_BASELINE},
};

static void hold_whose(void)
{
    static lutniorad_answer (*const calls[])(void) = {overlay_exist, overlay_report, overlay_select, overlay_part};
    for (size_t i = 0; i < COUNT(refused_for) * COUNT(calls); i++) {
        const size_t k = i / COUNT(calls);
        begin();
        refused_for[k].spoil();
        hold_answer(calls[i % COUNT(calls)](), refused_for[k].refusal, refused_for[k].place, refused_for[k].whose,
                    refused_for[k].name);
    }
    for (size_t i = 0; i < COUNT(parts); i++) {
        begin();
        key = parts[i].key;
        hold_answer(overlay_part(), 0, 0, parts[i].whose, parts[i].name);
    }
}

/* ---- What is said ---- */

/* On the map as it is begun: of records, and at last of blocks, for windows of one row. */
static const struct {
    const char *name;
    uint32_t said, about;
    uint16_t row, col, w;
} said[] = {
    {"LUTNIORAD_HANDED_OUT", LUTNIORAD_HANDED_OUT, 6, 2, 2, 1},
    {"LUTNIORAD_NORTH", LUTNIORAD_NORTH, 0, 2, 2, 1},
    {"LUTNIORAD_SOUTH", LUTNIORAD_SOUTH, 5, 0, 0, 1},
    {"LUTNIORAD_WEST", LUTNIORAD_WEST, 5, 2, 2, 1},
    {"LUTNIORAD_EAST", LUTNIORAD_EAST, 1, 0, 0, 1},
    {"LUTNIORAD_OPENED", LUTNIORAD_OPENED, 6, 0, 0, 2},
    {"LUTNIORAD_SKIPPED", LUTNIORAD_SKIPPED, 7, 0, 0, 2},
};

static void hold_said(void)
{
    begin();
    for (size_t i = 0; i < COUNT(said); i++) {
        lutniorad_reason reason = (said[i].said < LUTNIORAD_OPENED ? lutniorad_why_record : lutniorad_why_block)(
            m, keys, Q, classes, Q, said[i].row, said[i].col, 1, said[i].w, said[i].about, border, WIDTH);
        hold_answer(as_answer(reason), 0, 0, said[i].said, said[i].name);
    }
}

/* ---- Limits ---- */

static even_map a, b;
static uint16_t wide[LUTNIORAD_MOST_SIDE];
static uint8_t bytes[LUTNIORAD_MOST_FILE_BYTES + 1];

static lutniorad_answer check(uint32_t of_m, size_t q)
{
    return lutniorad_check(of_m, a.keys, q, a.classes, q);
}

static lutniorad_answer sparse_check(size_t q)
{
    return lutniorad_sparse_check(a.m, a.keys, q, a.classes, q);
}

/* The first q records, into a map and a log that are always long enough. */
static uint32_t longest_log[LUTNIORAD_SALVAGE_LOG_CELLS(LUTNIORAD_MOST_RECORDS)];

static lutniorad_answer salvage_first(size_t q)
{
    return lutniorad_salvage(a.m, a.keys, q, a.classes, q, b.keys, LUTNIORAD_MOST_RECORDS, b.classes,
                             LUTNIORAD_MOST_RECORDS, longest_log, LUTNIORAD_SALVAGE_LOG_CELLS(q));
}

static lutniorad_answer decompose(uint16_t h, uint16_t w)
{
    static uint32_t one[1];
    return lutniorad_decompose(LUTNIORAD_MOST_M, 0, 0, h, w, one, 1);
}

static void hold_sizes(void)
{
    const uint16_t side = LUTNIORAD_MOST_SIDE;
    make_even_map(&a, LUTNIORAD_MOST_M, 0, 1);
    hold_answer(check(LUTNIORAD_MOST_M, 1), 0, 0, 1, "LUTNIORAD_MOST_M");
    hold_answer(check(LUTNIORAD_MOST_M + 1, 1), LUTNIORAD_BAD_M, 0, 0, "LUTNIORAD_MOST_M");
    hold_answer(decompose(side, side), 0, 0, 1, "LUTNIORAD_MOST_SIDE");
    hold_answer(decompose(side + 1, 1), LUTNIORAD_BAD_WINDOW, 0, 0, "LUTNIORAD_MOST_SIDE");
    hold_answer(decompose(1, side + 1), LUTNIORAD_BAD_WINDOW, 0, 0, "LUTNIORAD_MOST_SIDE");
    hold_answer(lutniorad_exist(a.m, a.keys, 1, a.classes, 1, 0, 0, side, side, 1, wide, LUTNIORAD_MOST_SIDE), 0, 0,
                LUTNIORAD_YES, "LUTNIORAD_MOST_SIDE");
    begin();
    hold_answer(lutniorad_month_clear(2, 0, 1, 3, 3, table, LUTNIORAD_MONTH_CELLS - 1), LUTNIORAD_SHORT_ROOM,
                LUTNIORAD_MONTH_CELLS, 0, "LUTNIORAD_MONTH_CELLS");
    for (uint32_t maps = 1; maps <= LUTNIORAD_MOST_MAPS; maps++)
        hold_answer(add(), 0, 0, maps, "LUTNIORAD_MOST_MAPS");
    hold_answer(add(), LUTNIORAD_MONTH_FULL, 0, 0, "LUTNIORAD_MOST_MAPS");
}

/* The longest map there is, as a map and as a file; and a buffer of a byte more, whatever its length field says. */
static void hold_longest(void)
{
    const uint32_t q = LUTNIORAD_MOST_RECORDS, n = LUTNIORAD_MOST_FILE_BYTES;
    make_even_map(&a, 8, 8, 1);
    hold_answer(check(a.m, q), 0, 0, q, "LUTNIORAD_MOST_RECORDS");
    hold_answer(check(a.m, (size_t)q + 1), LUTNIORAD_BAD_COUNT, 0, 0, "LUTNIORAD_MOST_RECORDS");
    hold_answer(sparse_check(q), 0, 0, q, "LUTNIORAD_MOST_RECORDS");
    hold_answer(sparse_check((size_t)q + 1), LUTNIORAD_BAD_COUNT, 0, 0, "LUTNIORAD_MOST_RECORDS");
    hold_answer(salvage_first(q), 0, 0, q, "LUTNIORAD_MOST_RECORDS");
    hold_answer(salvage_first((size_t)q + 1), LUTNIORAD_BAD_COUNT, 0, 0, "LUTNIORAD_MOST_RECORDS");
    hold_answer(lutniorad_write(a.m, a.keys, q, a.classes, q, bytes, sizeof bytes), 0, 0, n,
                "LUTNIORAD_MOST_FILE_BYTES");
    hold_answer(lutniorad_read(bytes, n, a.keys, q, a.classes, q), 0, 0, a.m, "LUTNIORAD_MOST_FILE_BYTES");
    hold_answer(lutniorad_read(bytes, sizeof bytes, a.keys, q, a.classes, q), LUTNIORAD_BAD_LAYOUT, 0, 0,
                "LUTNIORAD_MOST_FILE_BYTES + 1");
    bytes[0]++;
    hold_answer(lutniorad_read(bytes, sizeof bytes, a.keys, q, a.classes, q), LUTNIORAD_BAD_LAYOUT, 8, 0,
                "LUTNIORAD_MOST_FILE_BYTES + 1");
}

/* Of a picture of each class alone, asked for another that is seen. */
static void hold_not_seen(void)
{
    for (int class = 0; class < LUTNIORAD_CLASSES; class++) {
        make_even_map(&a, 0, 0, (uint8_t)class);
        hold_answer(lutniorad_exist(0, a.keys, 1, a.classes, 1, 0, 0, 1, 1, class == 1 ? 2 : 1, wide, 1), 0, 0,
                    class == LUTNIORAD_NOT_SEEN ? LUTNIORAD_CANNOT_TELL : LUTNIORAD_NO, "LUTNIORAD_NOT_SEEN");
    }
}

static void hold_version(void)
{
    char version[40];
    snprintf(version, sizeof version, "%d.%d.%d", LUTNIORAD_VERSION_MAJOR, LUTNIORAD_VERSION_MINOR,
             LUTNIORAD_VERSION_PATCH);
    hold(strcmp(version, LUTNIORAD_VERSION) == 0, "LUTNIORAD_VERSION", "it is not the three numbers");
}

/* ---- Room ---- */

/*
 * The size of an array each, so each is a constant where its arguments are. The largest picture fits, and with the tile
 * 4 there are more blocks in it than without.
 */
enum { SIDE = LUTNIORAD_MOST_SIDE, TILE = 4 };
static uint32_t blocks[LUTNIORAD_DECOMPOSE_CELLS(SIDE, SIDE)];
static uint32_t openings[LUTNIORAD_OPEN_CELLS(SIDE, SIDE)];
static uint32_t selected[LUTNIORAD_SELECT_CELLS(LUTNIORAD_MOST_RECORDS, SIDE, SIDE)];
static uint32_t tiled_blocks[LUTNIORAD_DECOMPOSE_TILED_CELLS(TILE, SIDE, SIDE)];
static uint32_t tiled_openings[LUTNIORAD_OPEN_TILED_CELLS(TILE, SIDE, SIDE)];
static uint32_t tiled_selected[LUTNIORAD_SELECT_TILED_CELLS(TILE, LUTNIORAD_MOST_RECORDS, SIDE, SIDE)];
static uint32_t counted[LUTNIORAD_WINDOWS_CELLS(LUTNIORAD_MOST_WINDOWS + 1)];
static uint16_t whole[4 * (LUTNIORAD_MOST_WINDOWS + 1)];

static lutniorad_answer windows(size_t n, size_t n_out)
{
    return lutniorad_windows(a.m, a.keys, a.q, a.classes, a.q, whole, 4 * n, wide, 1, counted, n_out);
}

/* The whole picture, up to as often as a list may have it, with just so much room and with less; and once more. */
static void hold_windows(void)
{
    const uint32_t most = LUTNIORAD_MOST_WINDOWS;
    make_even_map(&a, 0, 0, 1);
    for (size_t i = 0; i < COUNT(whole); i++)
        whole[i] = i % 4 < 2 ? 0 : 1;
    for (uint32_t n = 0; n <= most; n++) {
        const size_t cells = LUTNIORAD_WINDOWS_CELLS(n);
        hold_answer(windows(n, cells), 0, 0, n, "LUTNIORAD_MOST_WINDOWS or LUTNIORAD_WINDOWS_CELLS");
        if (n > 0)
            hold_answer(windows(n, cells - 1), LUTNIORAD_SHORT_ROOM, (uint32_t)cells, 0, "LUTNIORAD_WINDOWS_CELLS");
    }
    hold_answer(windows(most + 1, COUNT(counted)), LUTNIORAD_BAD_WINDOW_LIST, 0, 0, "LUTNIORAD_MOST_WINDOWS");
}

/*
 * Nearly as many entries as there can be: as many records as a map may have, of which one in twenty is the first pixel
 * of the next block of side 64, and the others name no block. In each of these blocks 18 are filled in.
 */
static void hold_longest_log(void)
{
    enum { TO_PIXEL = (15625 - 1) / 4, APART = 20 };
    make_even_map(&b, LUTNIORAD_MOST_M, 6, 1);
    make_even_map(&a, LUTNIORAD_MOST_M, 8, 1);
    for (size_t i = 0; i < LUTNIORAD_MOST_RECORDS; i++)
        a.keys[i] = i % APART == 0 ? b.keys[i / APART] + TO_PIXEL : UINT32_MAX;
    const lutniorad_answer made = salvage_first(LUTNIORAD_MOST_RECORDS);
    hold_answer(made, 0, 0, 62272, "LUTNIORAD_SALVAGE_LOG_CELLS");
    hold(made.second == 121254, "LUTNIORAD_SALVAGE_LOG_CELLS", "there are not 121,254 entries");
}

/* Of the longest map the first record has become a quarter of its block: the other three would be filled in. */
static void hold_most_mended(void)
{
    make_even_map(&a, LUTNIORAD_MOST_M, 8, 1);
    hold_answer(salvage_first(a.q), 0, 0, LUTNIORAD_MOST_RECORDS, "LUTNIORAD_MOST_RECORDS");
    a.keys[0] += 125;
    hold_answer(salvage_first(a.q), LUTNIORAD_BAD_COUNT, 0, 0, "LUTNIORAD_MOST_RECORDS");
}

static void hold_arguments(void)
{
    int q = 1, h = 2, w = 3;
    hold(2 * LUTNIORAD_DECOMPOSE_CELLS(h++, w++) == 40, "LUTNIORAD_DECOMPOSE_CELLS", "of 2 and 3 it is not 20");
    hold(2 * LUTNIORAD_OPEN_CELLS(h++, w++) == 168, "LUTNIORAD_OPEN_CELLS", "of 3 and 4 it is not 84");
    hold(2 * LUTNIORAD_SELECT_CELLS(q++, h++, w++) == 74, "LUTNIORAD_SELECT_CELLS", "of 1, 4 and 5 it is not 37");
    hold(2 * LUTNIORAD_FILE_BYTES(q++) == 60, "LUTNIORAD_FILE_BYTES", "of 2 it is not 30");
    hold(2 * LUTNIORAD_WINDOWS_CELLS(1 + q++) == 40, "LUTNIORAD_WINDOWS_CELLS", "of 4 it is not 20");
    hold(2 * LUTNIORAD_SALVAGE_LOG_CELLS(1 + q++) == 4 * 65541, "LUTNIORAD_SALVAGE_LOG_CELLS",
         "of 5 it is not 2 * 65,541");
    hold(q == 5 && h == 5 && w == 6, "room", "an argument is not taken once");
}

/* Those with a tile take h and w twice, and the others once. */
static void hold_arguments_with_tile(void)
{
    int c = 0, q = 1;
    hold(2 * LUTNIORAD_DECOMPOSE_TILED_CELLS(c++, 2 + 1, 4 + 1) == 94, "LUTNIORAD_DECOMPOSE_TILED_CELLS",
         "of 0, 3 and 5 it is not 47");
    hold(2 * LUTNIORAD_OPEN_TILED_CELLS(c++, 2 + 1, 4 + 1) == 210, "LUTNIORAD_OPEN_TILED_CELLS",
         "of 1, 3 and 5 it is not 105");
    hold(2 * LUTNIORAD_SELECT_TILED_CELLS(c++, q++, 7 + 1, 9 + 1) == 156, "LUTNIORAD_SELECT_TILED_CELLS",
         "of 2, 1, 8 and 10 it is not 78");
    hold(LUTNIORAD_DECOMPOSE_TILED_CELLS(8 + 4, SIDE, SIDE) == LUTNIORAD_DECOMPOSE_CELLS(SIDE, SIDE) + 1,
         "LUTNIORAD_DECOMPOSE_TILED_CELLS", "with the largest tile the largest picture has not one tile");
    hold(c == 3 && q == 2, "room with a tile", "an argument is not taken once");
}

/*
 * On a map of pixels each maximal block is an opening, and each pixel of the window is selected; on one of a single
 * record each maximal block is selected.
 */
static void hold_room(uint16_t row, uint16_t col, uint16_t h, uint16_t w)
{
    size_t most = LUTNIORAD_DECOMPOSE_CELLS(h, w);
    lutniorad_answer cut = lutniorad_decompose(a.m, row, col, h, w, blocks, most);
    lutniorad_answer opened = lutniorad_open(a.m, a.keys, a.q, a.classes, a.q, row, col, h, w, wide, w, openings,
                                             LUTNIORAD_OPEN_CELLS(h, w));
    lutniorad_answer listed = lutniorad_select(a.m, a.keys, a.q, a.classes, a.q, row, col, h, w, 1, wide, w, selected,
                                               LUTNIORAD_SELECT_CELLS(a.q, h, w));
    hold(cut.refusal == 0 && cut.first < most, "LUTNIORAD_DECOMPOSE_CELLS", "it is not enough");
    hold(opened.refusal == 0 && 3 * opened.first < LUTNIORAD_OPEN_CELLS(h, w), "LUTNIORAD_OPEN_CELLS",
         "it is not enough");
    hold(listed.refusal == 0 && listed.first < LUTNIORAD_SELECT_CELLS(a.q, h, w), "LUTNIORAD_SELECT_CELLS",
         "it is not enough");
}

static void hold_tiled_room(uint32_t c, uint16_t row, uint16_t col, uint16_t h, uint16_t w)
{
    size_t most = LUTNIORAD_DECOMPOSE_TILED_CELLS(c, h, w);
    lutniorad_answer cut = lutniorad_decompose_tiled(a.m, c, row, col, h, w, tiled_blocks, most);
    lutniorad_answer opened = lutniorad_open_tiled(a.m, c, a.keys, a.q, a.classes, a.q, row, col, h, w, wide, w,
                                                   tiled_openings, LUTNIORAD_OPEN_TILED_CELLS(c, h, w));
    lutniorad_answer listed = lutniorad_select_tiled(a.m, c, a.keys, a.q, a.classes, a.q, row, col, h, w, 1, wide, w,
                                                     tiled_selected, LUTNIORAD_SELECT_TILED_CELLS(c, a.q, h, w));
    hold(cut.refusal == 0 && cut.first < most, "LUTNIORAD_DECOMPOSE_TILED_CELLS", "it is not enough");
    hold(opened.refusal == 0 && opened.first < most && opened.first <= a.q, "LUTNIORAD_OPEN_TILED_CELLS",
         "it is not enough");
    hold(listed.refusal == 0 && listed.first < a.q + most, "LUTNIORAD_SELECT_TILED_CELLS", "it is not enough");
}

/* Leaves every second record out, so that no gap is joined with another. Those left have the background's class. */
static void make_gaps(void)
{
    b.m = a.m;
    b.q = 0;
    for (size_t i = 0; i < a.q; i += 2, b.q++) {
        b.keys[b.q] = a.keys[i];
        b.classes[b.q] = a.classes[i];
    }
}

/* Of the map with gaps over that without, where all of either has the class asked for, or only the gaps have. */
static void hold_overlay_room(uint16_t row, uint16_t col, uint16_t h, uint16_t w)
{
    static const uint8_t others[LUTNIORAD_MOST_RECORDS];
    const size_t pixels = (size_t)h * w;
    lutniorad_answer joined = lutniorad_overlay_select(b.m, b.keys, b.q, b.classes, b.q, a.m, a.keys, a.q, a.classes,
                                                       a.q, row, col, h, w, 1, wide, w, selected, pixels);
    lutniorad_answer apart = lutniorad_overlay_select(b.m, b.keys, b.q, others, b.q, a.m, a.keys, a.q, a.classes, a.q,
                                                      row, col, h, w, 1, wide, w, selected, pixels);
    hold(joined.first == lutniorad_decompose(a.m, row, col, h, w, blocks, COUNT(blocks)).first,
         "what is all of one class", "it is not joined to the maximal blocks");
    hold(joined.refusal == 0 && apart.refusal == 0 && apart.first <= pixels, "a cell for each pixel of an overlay",
         "that is not enough");
}

/*
 * On the map with gaps, and on one without records, on which each maximal block is an opening. Where records and gaps
 * are pixels, each pixel of the window is listed.
 */
static void hold_sparse_room(uint32_t c, uint16_t row, uint16_t col, uint16_t h, uint16_t w)
{
    const uint32_t pixels = (uint32_t)h * w;
    const size_t most = LUTNIORAD_OPEN_TILED_CELLS(c, h, w);
    lutniorad_answer cut = lutniorad_decompose_tiled(b.m, c, row, col, h, w, tiled_blocks, COUNT(tiled_blocks));
    lutniorad_answer opened =
        lutniorad_sparse_open(b.m, c, b.keys, b.q, b.classes, b.q, row, col, h, w, wide, w, tiled_openings, most);
    lutniorad_answer empty =
        lutniorad_sparse_open(b.m, c, b.keys, 0, b.classes, 0, row, col, h, w, wide, w, tiled_openings, most);
    lutniorad_answer listed = lutniorad_sparse_select(b.m, c, 1, b.keys, b.q, b.classes, b.q, row, col, h, w, 1, wide,
                                                      w, tiled_selected, pixels);
    lutniorad_answer others = lutniorad_sparse_select(b.m, c, 2, b.keys, b.q, b.classes, b.q, row, col, h, w, 1, wide,
                                                      w, tiled_selected, LUTNIORAD_SELECT_TILED_CELLS(c, b.q, h, w));
    hold(opened.refusal == 0 && 3 * opened.first < most, "LUTNIORAD_OPEN_TILED_CELLS", "with gaps it is not enough");
    hold_answer(empty, 0, 0, cut.first, "LUTNIORAD_OPEN_TILED_CELLS");
    hold(listed.refusal == 0 && listed.first <= pixels, "a cell for each pixel", "that is not enough");
    hold(a.q < (size_t)1 << 2 * a.m || listed.first == pixels, "pixels that are records and gaps", "some are joined");
    hold(others.refusal == 0, "LUTNIORAD_SELECT_TILED_CELLS", "it is not enough for a class that is not in gaps");
}

static void hold_room_of_every_window(uint32_t of_m, uint32_t level)
{
    uint16_t side = (uint16_t)(1 << of_m);
    make_even_map(&a, of_m, level, 1);
    make_gaps();
    hold_answer(lutniorad_write(a.m, a.keys, a.q, a.classes, a.q, bytes, LUTNIORAD_FILE_BYTES(a.q)), 0, 0,
                (uint32_t)LUTNIORAD_FILE_BYTES(a.q), "LUTNIORAD_FILE_BYTES");
    for (uint16_t row = 0; row < side; row++)
        for (uint16_t col = 0; col < side; col++)
            for (uint16_t h = 1; row + h <= side; h++)
                for (uint16_t w = 1; col + w <= side; w++) {
                    hold_room(row, col, h, w);
                    hold_overlay_room(row, col, h, w);
                    for (uint32_t c = 0; c <= of_m; c++) {
                        hold_tiled_room(c, row, col, h, w);
                        hold_sparse_room(c, row, col, h, w);
                    }
                }
}

/* Strips about the middle of a large picture, and all of it but its edge, have nearly as many blocks as can be. */
static void hold_room_of_large_windows(uint32_t of_m, uint32_t level)
{
    uint16_t side = (uint16_t)(1 << of_m), most = (uint16_t)(side - 2);
    make_even_map(&a, of_m, level, 1);
    for (uint16_t half = 1; half <= 16; half++) {
        uint16_t from = (uint16_t)(side / 2 - half), twice = (uint16_t)(2 * half);
        hold_room(from, 1, twice, most);
        hold_room(1, from, most, twice);
        hold_room(half, half, (uint16_t)(side - twice), (uint16_t)(side - twice));
        hold_tiled_room(TILE, from, 1, twice, most);
        hold_tiled_room(TILE, half, half, (uint16_t)(side - twice), (uint16_t)(side - twice));
    }
}

/* As many blocks as there can be at all: on a map of one record, the pixels of the largest picture. */
static void hold_most_blocks(void)
{
    const uint32_t pixels = (uint32_t)SIDE * SIDE;
    make_even_map(&a, LUTNIORAD_MOST_M, 0, 1);
    hold_answer(lutniorad_decompose_tiled(a.m, 0, 0, 0, SIDE, SIDE, blocks, COUNT(blocks)), LUTNIORAD_SHORT_ROOM,
                pixels, 0, "every pixel a block");
    hold_answer(lutniorad_select_tiled(a.m, 0, a.keys, a.q, a.classes, a.q, 0, 0, SIDE, SIDE, 1, wide, SIDE, selected,
                                       COUNT(selected)),
                LUTNIORAD_SHORT_ROOM, pixels, 0, "every pixel selected");
    hold_answer(lutniorad_open_tiled(a.m, 0, a.keys, a.q, a.classes, a.q, 0, 0, SIDE, SIDE, wide, SIDE, openings, 3), 0,
                0, 1, "a record of every pixel");
}

int main(void)
{
    hold_refusals();
    hold_sparse();
    hold_whose();
    hold_said();
    hold_sizes();
    hold_longest();
    hold_not_seen();
    hold_version();
    hold_windows();
    hold_longest_log();
    hold_most_mended();
    hold_arguments();
    hold_arguments_with_tile();
    for (uint32_t of_m = 0; of_m <= 4; of_m++)
        for (uint32_t level = 0; level <= of_m; level++)
            hold_room_of_every_window(of_m, level);
    hold_room_of_large_windows(8, 8);
    hold_room_of_large_windows(LUTNIORAD_MOST_M, 0);
    hold_room_of_large_windows(LUTNIORAD_MOST_M, 8);
    hold_most_blocks();
    return wrong > 0;
}
