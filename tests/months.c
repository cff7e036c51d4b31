#include "months.h"

#include "harness.h"

#include <string.h>

/* The case at hand: a sound map, one that need not be sound, and a table with some cells beyond it. */
static map sound, damaged;

enum { LONGER_TABLE = TABLE_CELLS + 3 };
static uint64_t table[CELLS_OF_VAST];

static uint64_t *cells_of_class(size_t k)
{
    return table + TABLE_CLASSES + k * CELLS_OF_CLASS;
}

/* ---- Calls on the table at hand ---- */

static lutniorad_answer compare_clear(uint32_t m, window at, size_t n_table)
{
    call c = {&MONTH_CLEAR, m, NO_TILE, at, NO_CLASS, {{table, n_table}}};
    return compare(c);
}

static lutniorad_answer compare_add_slices(const map *a, size_t n_keys, size_t n_classes, given border, size_t n_table)
{
    given keys = {a->keys, n_keys}, classes = {a->classes, n_classes}, lent = {table, n_table};
    call c = {&MONTH_ADD, a->m, NO_TILE, NO_WINDOW, NO_CLASS, {keys, classes, border, lent}};
    return compare(c);
}

static lutniorad_answer compare_add(const map *a, size_t n_border, size_t n_table)
{
    given border = {NULL, n_border};
    return compare_add_slices(a, a->q, a->q, border, n_table);
}

/* ---- A month as a list of reports ---- */

/*
 * The month at hand once more, and not as a table: the reports of the maps that were taken since it was cleared, by
 * number from `first` to before `end`. Those before are of months that the same row of calls cleared.
 */
typedef struct {
    uint32_t m;
    window at;
    size_t first, end;
} month;

enum { MOST_REPORTS = MOST_MAPS + 100 };
static uint32_t reports[CLASSES][MOST_REPORTS];
static month listed;

static void append_report(const map *a)
{
    static uint16_t border[4096];
    uint32_t totals[CLASSES];
    window at = listed.at;
    lutniorad_answer report = reference_report(a->m, a->keys, a->q, a->classes, a->q, at.r0, at.c0, at.h, at.w, border,
                                               COUNT(border), totals, CLASSES);
    require(report.refusal == 0 && listed.end < MOST_REPORTS, "there is no report of a map that was taken");
    for (size_t k = 0; k < CLASSES; k++)
        reports[k][listed.end] = totals[k];
    listed.end++;
}

/* The least, the greatest and the sum of what the list has, and how many of it are not 0. */
static void make_cells_of_class(size_t k, uint64_t cells[4])
{
    uint64_t least = 0, greatest = 0, sum = 0, maps = 0;
    for (size_t i = listed.first; i < listed.end; i++) {
        uint64_t pixels = reports[k][i];
        if (i == listed.first || pixels < least)
            least = pixels;
        if (pixels > greatest)
            greatest = pixels;
        sum += pixels;
        maps += pixels != 0;
    }
    const uint64_t made[] = {least, greatest, sum, maps};
    memcpy(cells, made, sizeof made);
}

/* The library's table, slice i of the last call, is the one made anew from the list. The row goes on with it. */
static void require_listed(size_t i, size_t n_table)
{
    const uint64_t head[] = {listed.m, listed.at.r0, listed.at.c0, listed.at.h, listed.at.w, listed.end - listed.first};
    uint64_t made[1030];
    const uint64_t *now = left(i);
    size_t n = n_table < COUNT(made) ? n_table : COUNT(made);
    memcpy(made, head, sizeof head);
    for (size_t k = 0; k < CLASSES; k++)
        make_cells_of_class(k, made + 6 + 4 * k);
    require(memcmp(now, made, n * sizeof *now) == 0, "the table is not that of the maps that were taken");
    require(memcmp(now + n, table + n, (n_table - n) * sizeof *now) == 0, "cells beyond the table were written");
    memcpy(table, now, n_table * sizeof *now);
}

static void clear_month(uint32_t m, window at, size_t n_table)
{
    if (compare_clear(m, at, n_table).refusal == 0) {
        month cleared = {m, at, listed.end, listed.end};
        listed = cleared;
    }
    require_listed(0, n_table);
}

static void fill_table(void)
{
    for (size_t i = 0; i < COUNT(table); i++)
        table[i] = random_number();
}

/* A row of calls begins. False where the month is refused. */
static bool begin_month(uint32_t m, window at, size_t n_table)
{
    fill_table();
    if (compare_clear(m, at, n_table).refusal != 0)
        return false;
    month cleared = {m, at, 0, 0};
    listed = cleared;
    require_listed(0, n_table);
    return true;
}

static void begin_month_inside(uint32_t m, window at, size_t n_table)
{
    require(begin_month(m, at, n_table), "a month of a window inside the picture is refused");
}

static void add_to_month(const map *a, size_t n_border, size_t n_table)
{
    bool is_sound = reference_check(a->m, a->keys, a->q, a->classes, a->q).refusal == 0;
    bool is_fit = is_sound && a->m == listed.m && n_table >= TABLE_CELLS;
    bool is_full = listed.end - listed.first == MOST_MAPS;
    bool is_taken = is_fit && !is_full && n_border >= listed.at.w;
    lutniorad_answer answer = compare_add(a, n_border, n_table);
    require(answer.refusal != 26, "a table that came from these calls is refused by 26");
    require((answer.refusal == 16) == (is_fit && is_full), "16 is given before there are 1,000 maps, or not then");
    require((answer.refusal == 0) == is_taken, "a map was taken that must be refused, or the other way round");
    if (is_taken)
        append_report(a);
    require(answer.first == (is_taken ? listed.end - listed.first : 0), "the answer has another number of maps");
    require_listed(3, n_table);
}

void try_month(const map *a, window at)
{
    begin_month_inside(a->m, at, TABLE_CELLS);
    add_to_month(a, at.w, TABLE_CELLS);
}

/* ---- Group: months written out ---- */

/* The window of the reference case, which has 9 pixels. */
static const window REFERENCE_WINDOW = {0, 1, 3, 3};

/*
 * The table of that window after so many of the maps below: its first cells, up to those of class 3, and the cells of
 * class 255. All others are 0.
 */
static const struct {
    uint64_t first[22], of_255[4];
} stated_months[] = {
    {{2, 0, 1, 3, 3, 0, 0, 0, 0, 0, 0, 0, 0, 0, 0, 0, 0, 0, 0, 0, 0, 0}, {0, 0, 0, 0}},
    {{2, 0, 1, 3, 3, 1, 0, 0, 0, 0, 4, 4, 4, 1, 4, 4, 4, 1, 1, 1, 1, 1}, {0, 0, 0, 0}},
    {{2, 0, 1, 3, 3, 2, 0, 0, 0, 0, 0, 4, 4, 1, 0, 4, 4, 1, 0, 1, 1, 1}, {0, 9, 9, 1}},
    {{2, 0, 1, 3, 3, 3, 0, 2, 2, 1, 0, 6, 10, 2, 0, 4, 4, 1, 0, 1, 2, 2}, {0, 9, 9, 1}},
};

static const struct {
    uint32_t m;
    size_t q;
    uint32_t keys[REFERENCE_Q];
    uint8_t classes[REFERENCE_Q];
    size_t n_border;
    lutniorad_answer answer;
} stated_maps[] = {
    {2, 7, {5, 11, 12, 13, 14, 15, 20}, {1, 2, 2, 3, 1, 1, 2}, 3, {0, 0, 1, 0}}, /* the reference map */
    {2, 6, {5, 11, 12, 13, 14, 15}, {1, 2, 2, 3, 1, 1}, 3, {5, 6, 0, 0}},
    {1, 1, {0}, {2}, 3, {15, 0, 0, 0}},
    {2, 1, {0}, {255}, 2, {7, 3, 0, 0}},
    {2, 1, {0}, {255}, 3, {0, 0, 2, 0}},
    {2, 2, {0, 0}, {2, 2}, 3, {4, 1, 0, 0}},
    {2, 4, {5, 10, 15, 20}, {1, 1, 3, 0}, 4, {0, 0, 3, 0}},
};

/* What the last call left as slice i is the table after so many maps. The row goes on with it. */
static void require_stated_month(size_t i, size_t maps)
{
    uint64_t stated[1030] = {0};
    memcpy(stated, stated_months[maps].first, sizeof stated_months[maps].first);
    memcpy(stated + 6 + 4 * 255, stated_months[maps].of_255, sizeof stated_months[maps].of_255);
    memcpy(table, left(i), sizeof stated);
    require(memcmp(table, stated, sizeof stated) == 0, "another table than the one written out");
}

static void stated_row(void)
{
    size_t maps = 0;
    fill_table();
    require_numbers(compare_clear(2, REFERENCE_WINDOW, 1029), 8, 1030, 0, 0);
    require_numbers(compare_clear(2, REFERENCE_WINDOW, 1030), 0, 0, 0, 0);
    require_stated_month(0, maps);
    for (size_t i = 0; i < COUNT(stated_maps); i++) {
        copy_records(&sound, stated_maps[i].m, stated_maps[i].q, stated_maps[i].keys, stated_maps[i].classes);
        require_stated(compare_add(&sound, stated_maps[i].n_border, 1030), stated_maps[i].answer);
        if (stated_maps[i].answer.refusal == 0)
            maps++;
        require_stated_month(3, maps);
    }
}

/*
 * On the table of the reference window with so many maps, each the reference map, of which the cells of class 1 are set
 * and then one more. The map that is added is the reference map, but for its third key.
 */
static const struct {
    size_t maps;
    uint64_t of_class_1[CELLS_OF_CLASS];
    size_t cell;
    uint64_t value;
    uint32_t third_key;
    size_t n_border, n_table;
    lutniorad_answer answer;
    uint64_t left_of_class_1[CELLS_OF_CLASS];
} stated_tables[] = {
    {0, {0, 0, 0, 0}, 5, 0, 12, 3, 1030, {0, 0, 1, 0}, {4, 4, 4, 1}},
    {0, {7, 9, 0, 0}, 5, 0, 12, 3, 1030, {0, 0, 1, 0}, {4, 4, 4, 1}}, /* the first map sets least and greatest */
    {0, {1, 3, 0, 0}, 5, 0, 12, 3, 1030, {0, 0, 1, 0}, {4, 4, 4, 1}},
    {0, {UINT64_MAX, UINT64_MAX, 0, 0}, 5, 0, 12, 3, 1030, {0, 0, 1, 0}, {4, 4, 4, 1}},
    {0, {0, 0, 1, 0}, 5, 0, 12, 3, 1030, {26, 0, 0, 0}, {0, 0, 1, 0}},
    {0, {0, 0, 0, 1}, 5, 0, 12, 3, 1030, {26, 0, 0, 0}, {0, 0, 0, 1}},
    {1, {4, 4, 4, 1}, 5, 1, 12, 3, 1030, {0, 0, 2, 0}, {4, 4, 8, 2}},
    {1, {4, 4, 9, 1}, 5, 1, 12, 3, 1030, {0, 0, 2, 0}, {4, 4, 13, 2}}, /* as many pixels as the window has */
    {1, {4, 4, 10, 1}, 5, 1, 12, 3, 1030, {26, 0, 0, 0}, {4, 4, 10, 1}},
    {1, {4, 4, 4, 0}, 5, 1, 12, 3, 1030, {0, 0, 2, 0}, {4, 4, 8, 1}},
    {1, {4, 4, 4, 2}, 5, 1, 12, 3, 1030, {26, 0, 0, 0}, {4, 4, 4, 2}},
    {1, {4, 4, UINT64_MAX, 1}, 5, 1, 12, 3, 1030, {26, 0, 0, 0}, {4, 4, UINT64_MAX, 1}},
    {1, {4, 4, 4, UINT64_MAX}, 5, 1, 12, 3, 1030, {26, 0, 0, 0}, {4, 4, 4, UINT64_MAX}},
    {1, {9, 0, 4, 1}, 5, 1, 12, 3, 1030, {0, 0, 2, 0}, {4, 4, 8, 2}}, /* least over greatest */
    {1, {3, 0, 4, 1}, 5, 1, 12, 3, 1030, {0, 0, 2, 0}, {3, 4, 8, 2}},
    {1, {9, 5, 4, 1}, 5, 1, 12, 3, 1030, {0, 0, 2, 0}, {4, 5, 8, 2}},
    {1, {UINT64_MAX, UINT64_MAX, 4, 1}, 5, 1, 12, 3, 1030, {0, 0, 2, 0}, {4, UINT64_MAX, 8, 2}},
    {1, {4, 4, 4, 1}, 5, 0, 12, 3, 1030, {26, 0, 0, 0}, {4, 4, 4, 1}},
    {1, {4, 4, 4, 1}, 5, 999, 12, 3, 1030, {0, 0, 1000, 0}, {4, 4, 8, 2}},
    {1, {4, 4, 4, 1}, 5, 1000, 12, 3, 1030, {16, 0, 0, 0}, {4, 4, 4, 1}},
    {1, {4, 4, 4, 1}, 5, 1001, 12, 3, 1030, {26, 0, 0, 0}, {4, 4, 4, 1}},
    {1, {4, 4, 8991, 999}, 5, 999, 12, 3, 1030, {0, 0, 1000, 0}, {4, 4, 8995, 1000}},
    {1, {4, 4, 8992, 999}, 5, 999, 12, 3, 1030, {26, 0, 0, 0}, {4, 4, 8992, 999}},
    {1, {4, 4, 9000, 1000}, 5, 1000, 12, 3, 1030, {16, 0, 0, 0}, {4, 4, 9000, 1000}},
    {1, {4, 4, 9001, 1000}, 5, 1000, 12, 3, 1030, {26, 0, 0, 0}, {4, 4, 9001, 1000}}, /* 26 before 16 */
    {1, {4, 4, 4, 1001}, 5, 1000, 12, 3, 1030, {26, 0, 0, 0}, {4, 4, 4, 1001}},
    {1, {4, 4, 4, 1}, 5, 1000, 12, 2, 1030, {16, 0, 0, 0}, {4, 4, 4, 1}}, /* 16 before 7 */
    {1, {4, 4, 4, 1}, 5, 999, 12, 2, 1030, {7, 3, 0, 0}, {4, 4, 4, 1}},
    {1, {4, 4, 10, 1}, 5, 1, 12, 2, 1030, {26, 0, 0, 0}, {4, 4, 10, 1}},
    {1, {4, 4, 4, 1}, 4, 2, 12, 2, 1030, {0, 0, 2, 0}, {3, 4, 7, 2}},
    {1, {4, 4, 4, 1}, 4, 2, 12, 1, 1030, {7, 2, 0, 0}, {4, 4, 4, 1}},
    {1, {4, 4, 4, 1}, 4, 4, 12, 3, 1030, {26, 0, 0, 0}, {4, 4, 4, 1}},
    {1, {4, 4, 4, 1}, 4, 0, 12, 3, 1030, {26, 0, 0, 0}, {4, 4, 4, 1}},
    {1, {4, 4, 4, 1}, 4, 65539, 12, 3, 1030, {26, 0, 0, 0}, {4, 4, 4, 1}},
    {1, {4, 4, 4, 1}, 3, 0, 12, 3, 1030, {26, 0, 0, 0}, {4, 4, 4, 1}},
    {1, {4, 4, 4, 1}, 3, UINT64_MAX, 12, 3, 1030, {26, 0, 0, 0}, {4, 4, 4, 1}},
    {1, {4, 4, 4, 1}, 2, 0, 12, 3, 1030, {0, 0, 2, 0}, {4, 6, 10, 2}},
    {1, {4, 4, 4, 1}, 2, 2, 12, 3, 1030, {26, 0, 0, 0}, {4, 4, 4, 1}},
    {1, {4, 4, 4, 1}, 1, 65536, 12, 3, 1030, {26, 0, 0, 0}, {4, 4, 4, 1}},
    {1, {4, 4, 4, 1}, 1, UINT64_MAX, 12, 3, 1030, {26, 0, 0, 0}, {4, 4, 4, 1}},
    {1, {4, 4, 4, 1}, 0, 3, 12, 3, 1030, {15, 0, 0, 0}, {4, 4, 4, 1}},
    {1, {4, 4, 4, 1}, 0, VAST + 2, 12, 3, 1030, {15, 0, 0, 0}, {4, 4, 4, 1}},
    {1, {4, 4, 10, 1}, 0, 13, 12, 2, 1030, {15, 0, 0, 0}, {4, 4, 10, 1}}, /* 15 before 26 */
    {1, {4, 4, 4, 1}, 0, 3, 12, 2, 1029, {8, 1030, 0, 0}, {4, 4, 4, 1}},  /* 8 before 15 */
    {1, {4, 4, 4, 1}, 5, 1, 12, 2, 1029, {8, 1030, 0, 0}, {4, 4, 4, 1}},
    {1, {4, 4, 4, 1}, 5, 1, 12, 0, 0, {8, 1030, 0, 0}, {4, 4, 4, 1}},
    {1, {4, 4, 4, 1}, 0, 3, 1, 0, 0, {3, 2, 0, 0}, {4, 4, 4, 1}}, /* the map before all else */
    {1, {4, 4, 10, 1}, 5, 1, 5, 0, 1030, {4, 2, 0, 0}, {4, 4, 10, 1}},
    {1, {4, 4, 4, 1}, 5, 1000, 13, 0, 1030, {5, 2, 0, 0}, {4, 4, 4, 1}},
};

static void stated_table(size_t i)
{
    make_reference_map(&sound);
    begin_month_inside(2, REFERENCE_WINDOW, TABLE_CELLS);
    for (size_t maps = 0; maps < stated_tables[i].maps; maps++)
        add_to_month(&sound, 3, TABLE_CELLS);
    memcpy(table + 10, stated_tables[i].of_class_1, sizeof stated_tables[i].of_class_1);
    table[stated_tables[i].cell] = stated_tables[i].value;
    sound.keys[2] = stated_tables[i].third_key;
    require_stated(compare_add(&sound, stated_tables[i].n_border, stated_tables[i].n_table), stated_tables[i].answer);
    const uint64_t *cells = stated_tables[i].n_table == 0 ? table : left(3);
    require(memcmp(cells + 10, stated_tables[i].left_of_class_1, sizeof stated_tables[i].left_of_class_1) == 0,
            "other cells of class 1 than those written out");
}

void group_months_written_out(void)
{
    if (begin_case())
        stated_row();
    for (size_t i = 0; i < COUNT(stated_tables); i++)
        if (begin_case())
            stated_table(i);
}

/* ---- Group: clearing months ---- */

/* Over garbage. */
static void clear_with_every_length(uint32_t m, window at)
{
    static const size_t lengths[] = {0, 1, 5, 6, 1029, 1030, 1031, 1040, 2060};
    for (size_t i = 0; i < COUNT(lengths); i++) {
        call c = {&MONTH_CLEAR, m, NO_TILE, at, NO_CLASS, {{NULL, lengths[i]}}};
        compare(c);
    }
}

/* Right for large pictures, sticking out by one or by far, and such that their ends wrap round in 16 bits. */
static const window chosen_windows[] = {
    {0, 0, 4096, 4096},   {4095, 4095, 1, 1},   {1, 0, 4095, 4096},   {4095, 0, 2, 1},      {0, 4095, 1, 2},
    {0, 0, 4097, 1},      {0, 0, 1, 4097},      {4096, 0, 1, 1},      {0, 4096, 0, 0},      {65535, 0, 1, 1},
    {0, 65535, 1, 1},     {65535, 65535, 2, 2}, {65533, 0, 3, 3},     {0, 65533, 4, 4},     {0, 0, 65535, 65535},
    {32768, 0, 32768, 1}, {0, 32768, 1, 32768}, {1, 1, 65535, 65535}, {0, 0, 32768, 32768},
};

static void clear_for_every_m(window at)
{
    static const uint32_t others[] = {16, 255, 258, 268, 65538, 65548, 1u << 31, (1u << 31) + 2, UINT32_MAX};
    for (uint32_t m = 0; m <= 14; m++)
        clear_with_every_length(m, at);
    for (size_t i = 0; i < COUNT(others); i++)
        clear_with_every_length(others[i], at);
}

void group_clearing_months(void)
{
    for (uint32_t m = 0; m <= 2; m++)
        for (size_t number = 0; number < n_small_windows(m); number++)
            if (begin_case())
                clear_with_every_length(m, small_window(m, number));
    for (size_t i = 0; i < COUNT(chosen_windows); i++)
        if (begin_case())
            clear_for_every_m(chosen_windows[i]);
    if (begin_case())
        clear_for_every_m(REFERENCE_WINDOW);
}

/* ---- Group: small months ---- */

/* The maps that are added, of each m up to 2. */
static const size_t painted_pictures[] = {2, 18, 17};

/* Up to m = 1 every picture, with every choice of two classes for its records; then every picture, in some paint. */
static void make_painted_picture(map *a, uint32_t m, size_t number)
{
    if (m == 2) {
        make_picture(a, m, number);
        paint(a, FEW);
        return;
    }
    size_t picture = number < 2 ? 0 : 1, choice = number - 2 * picture;
    make_picture(a, m, picture);
    for (size_t i = 0; i < a->q; i++)
        a->classes[i] = (choice >> i & 1) == 0 ? 0 : 255;
}

static void clear_again(void)
{
    window pixel = {0, 0, 1, 1};
    clear_month(listed.m, below(2) == 0 ? pixel : listed.at, LONGER_TABLE);
}

static void clear_in_vain(void)
{
    size_t why = below(3);
    clear_month(why == 0 ? 13 : listed.m, why == 1 ? NO_WINDOW : listed.at, why == 2 ? TABLE_CELLS - 1 : LONGER_TABLE);
}

static void add_some_picture(size_t n_border, size_t n_table)
{
    make_painted_picture(&sound, listed.m, below(painted_pictures[listed.m]));
    add_to_month(&sound, n_border, n_table);
}

static void add_with_short_border(void)
{
    add_some_picture(listed.at.w - (size_t)1, LONGER_TABLE);
}

static void add_with_short_table(void)
{
    add_some_picture(listed.at.w, below(TABLE_CELLS));
}

static void add_of_other_m(void)
{
    make_painted_picture(&sound, (listed.m + 1) % 3, 0);
    add_to_month(&sound, listed.at.w, LONGER_TABLE);
}

static void add_damaged(void)
{
    make_painted_picture(&damaged, listed.m, below(painted_pictures[listed.m]));
    damage_at_random(&damaged);
    add_to_month(&damaged, listed.at.w, LONGER_TABLE);
}

static void (*const other_steps[])(void) = {
    clear_again, clear_in_vain, add_with_short_border, add_with_short_table, add_of_other_m, add_damaged,
};

/* Every row of up to so many calls, from the month at hand on. */
static void every_row(size_t longest)
{
    const month before = listed;
    const size_t maps = painted_pictures[listed.m];
    uint64_t table_before[LONGER_TABLE];
    memcpy(table_before, table, sizeof table_before);
    for (size_t step = 0; longest > 0 && step < maps + COUNT(other_steps); step++) {
        if (step < maps) {
            make_painted_picture(&sound, listed.m, step);
            add_to_month(&sound, listed.at.w, LONGER_TABLE);
        } else {
            other_steps[step - maps]();
        }
        every_row(longest - 1);
        listed = before;
        memcpy(table, table_before, sizeof table_before);
    }
}

/* Rows of up to four calls at m = 0, of three at m = 1, of two at m = 2, and there on some windows of three. */
void group_small_months(void)
{
    static const window windows[] = {{0, 1, 3, 3}, {0, 0, 4, 4}, {1, 1, 2, 2}, {2, 0, 2, 1}, {3, 0, 1, 4}};
    for (uint32_t m = 0; m <= 2; m++)
        for (size_t number = 0; number < n_small_windows(m); number++)
            if (begin_case() && begin_month(m, small_window(m, number), LONGER_TABLE))
                every_row(4 - m);
    for (size_t i = 0; i < COUNT(windows); i++)
        if (begin_case() && begin_month(2, windows[i], LONGER_TABLE))
            every_row(3);
}

/* ---- Group: spoiled tables ---- */

/* Often small, so that what a map has comes before it and after it. */
static uint64_t any_number(void)
{
    return random_number() >> (below(2) == 0 ? 60 : below(64));
}

/* A table that came from no calls and is taken nevertheless: any numbers that are not looked at, and some that are. */
static void make_any_table(uint32_t m, window at, uint64_t maps)
{
    const uint64_t head[] = {m, at.r0, at.c0, at.h, at.w, maps};
    for (size_t i = 0; i < COUNT(table); i++)
        table[i] = any_number();
    memcpy(table, head, sizeof head);
    for (size_t k = 0; k < CLASSES; k++) {
        uint64_t *of_class = cells_of_class(k);
        of_class[OF_CLASS_SUM] = below(maps * at.h * at.w + 1);
        of_class[OF_CLASS_MAPS] = below(maps + 1);
    }
}

/* A sound map of few records. */
static void make_few_records(map *a, uint32_t m)
{
    make_map(a, m, RAGGED, below(m == 0 ? 1 : m == 1 ? 2 : 5));
}

/* Numbers about a right one: beside it, and such that look like it when only some of the 64 bits are looked at. */
enum { NUMBERS_ABOUT = 15 };

static uint64_t number_about(uint64_t right, size_t k)
{
    const uint64_t top = (uint64_t)1 << 63;
    const uint64_t numbers[NUMBERS_ABOUT] = {
        right, right + 1,     right - 1,    0,   1,           4096,       4097, UINT16_MAX, 65536,
        65537, 65536 + right, VAST + right, top, top + right, UINT64_MAX,
    };
    return numbers[k];
}

/* Every two of the first six cells, set to each of these numbers, with a border as wide as the window and as any. */
static void spoil_pairs_of_cells(uint32_t m, window at, uint64_t maps)
{
    make_few_records(&sound, m);
    make_any_table(m, at, maps);
    for (size_t a = 0; a < TABLE_CLASSES; a++)
        for (size_t b = a + 1; b < TABLE_CLASSES; b++)
            for (size_t k = 0; k < NUMBERS_ABOUT * NUMBERS_ABOUT; k++) {
                const uint64_t right_a = table[a], right_b = table[b];
                table[a] = number_about(right_a, k % NUMBERS_ABOUT);
                table[b] = number_about(right_b, k / NUMBERS_ABOUT);
                compare_add(&sound, at.w, TABLE_CELLS);
                compare_add(&sound, side_of(m), TABLE_CELLS);
                table[a] = right_a;
                table[b] = right_b;
            }
}

/* Each cell of a class, set to numbers about the 4 pixels that classes 1 and 2 have, or about the most it may be. */
static void spoil_class(size_t k, uint64_t maps)
{
    const uint64_t about[CELLS_OF_CLASS] = {4, 4, 9 * maps, maps};
    make_reference_map(&sound);
    make_any_table(2, REFERENCE_WINDOW, maps);
    for (size_t i = 0; i < CELLS_OF_CLASS * NUMBERS_ABOUT; i++) {
        uint64_t *cell = cells_of_class(k) + i / NUMBERS_ABOUT, was = *cell;
        *cell = number_about(about[i / NUMBERS_ABOUT], i % NUMBERS_ABOUT);
        compare_add(&sound, 3, TABLE_CELLS);
        *cell = was;
    }
}

void group_spoiled_tables(void)
{
    static const struct {
        uint32_t m;
        window at;
        uint64_t maps;
    } months[] = {
        {0, {0, 0, 1, 1}, 1},  {2, {0, 1, 3, 3}, 999},         {2, {0, 1, 3, 3}, 0},
        {12, {1, 1, 1, 1}, 1}, {12, {4095, 4000, 1, 96}, 999},
    };
    for (size_t i = 0; i < COUNT(months); i++)
        if (begin_case())
            spoil_pairs_of_cells(months[i].m, months[i].at, months[i].maps);
    for (size_t k = 0; k < CLASSES; k++)
        if (begin_case()) {
            spoil_class(k, 1);
            spoil_class(k, 999);
        }
    for (size_t k = 0; k < CLASSES; k += 51) /* up to 255 */
        if (begin_case()) {
            spoil_class(k, 0);
            spoil_class(k, 2);
            spoil_class(k, 1000);
        }
}

/* ---- Group: refusals of months ---- */

/* What is wrong with the table of the reference window. The first is nothing. */
static const struct {
    size_t cell;
    uint64_t value;
} faults[] = {
    {TABLE_M, 2},
    {TABLE_M, 3},
    {TABLE_M, VAST + 2},
    {TABLE_R0, 2},
    {TABLE_C0, 2},
    {TABLE_H, 0},
    {TABLE_W, 65539},
    {TABLE_MAPS, 1000},
    {TABLE_MAPS, 1001},
    {TABLE_CELLS - 2, UINT64_MAX},
    {TABLE_CLASSES + OF_CLASS_MAPS, 1001},
};

/* The third key of the reference map as it is, and such that the map is refused by 3, by 4 and by 5. */
static const uint32_t third_keys[] = {12, 1, 5, 13};

/* The map and the table as they are then: with each length of the map's slices, of the border and of the table. */
static void add_with_every_length(void)
{
    static const size_t lengths[][2] = {{7, 7}, {6, 7}, {7, 6}, {0, 0}};
    static const size_t borders[] = {0, 2, 3};
    static const size_t tables[] = {0, 5, 1029, 1030};
    for (size_t i = 0; i < COUNT(lengths) * COUNT(borders) * COUNT(tables); i++) {
        const size_t *n = lengths[i / COUNT(borders) / COUNT(tables)];
        given border = {NULL, borders[i % COUNT(borders)]};
        compare_add_slices(&damaged, n[0], n[1], border, tables[i / COUNT(borders) % COUNT(tables)]);
    }
}

/* Each reason with each other: m, the lengths, the records, and two faults of the table. */
static void add_with_reasons_together(size_t one, size_t other)
{
    static const uint32_t ms[] = {2, 13, 258};
    make_reference_map(&damaged);
    make_any_table(2, REFERENCE_WINDOW, 1);
    table[faults[one].cell] = faults[one].value;
    table[faults[other].cell] = faults[other].value;
    for (size_t i = 0; i < COUNT(third_keys) * COUNT(ms); i++) {
        damaged.keys[2] = third_keys[i / COUNT(ms)];
        damaged.m = ms[i % COUNT(ms)];
        add_with_every_length();
    }
}

void group_month_refusals(void)
{
    for (size_t one = 0; one < COUNT(faults); one++)
        for (size_t other = 0; other <= one; other++)
            if (begin_case())
                add_with_reasons_together(one, other);
}

/* ---- Group: old contents of months ---- */

/* The border as it would be before the work, on its way and in the end, and least and greatest of no map like that. */
static void add_over_old_contents(window at)
{
    const int olds[] = {0, at.r0, at.r0 + 1, at.r0 + at.h - 1, at.r0 + at.h, at.r0 + at.h + 1, UINT16_MAX};
    uint16_t cells[8];
    given border = {cells, at.w + (size_t)3};
    require(border.length <= COUNT(cells), "the window is not small");
    make_any_table(sound.m, at, 0);
    for (size_t i = 0; i < COUNT(olds); i++) {
        for (size_t k = 0; k < COUNT(cells); k++)
            cells[k] = (uint16_t)olds[i];
        for (size_t k = 0; k < CLASSES; k++) {
            uint64_t *of_class = cells_of_class(k);
            of_class[OF_CLASS_LEAST] = of_class[OF_CLASS_GREATEST] = cells[0];
        }
        compare_add_slices(&sound, sound.q, sound.q, border, LONGER_TABLE);
    }
}

/* On a small map. */
static void old_contents_of_every_month(void)
{
    for (size_t number = 0; number < n_small_windows(sound.m); number++) {
        window at = small_window(sound.m, number);
        if (begin_month(sound.m, at, LONGER_TABLE))
            add_over_old_contents(at);
    }
}

void group_month_old_contents(void)
{
    for_small_maps(&sound, old_contents_of_every_month, 1);
}

/* ---- Group: vast tables ---- */

/* Of the reference window, whose border takes 3 cells. */
static const struct {
    const operation *operation;
    size_t n_keys, n_classes, n_border, n_table;
    lutniorad_answer answer;
} vast_tables[] = {
    {&MONTH_CLEAR, 0, 0, 0, VAST, {0, 0, 0, 0}},
    {&MONTH_CLEAR, 0, 0, 0, VAST + 1029, {0, 0, 0, 0}},
    {&MONTH_CLEAR, 0, 0, 0, VAST - 1, {0, 0, 0, 0}},
    {&MONTH_CLEAR, 0, 0, 0, 65536, {0, 0, 0, 0}},
    {&MONTH_CLEAR, 0, 0, 0, 65536 + 1029, {0, 0, 0, 0}},
    {&MONTH_ADD, 7, 7, 3, VAST, {0, 0, 2, 0}},
    {&MONTH_ADD, 7, 7, 3, VAST + 1029, {0, 0, 2, 0}},
    {&MONTH_ADD, 7, 7, 3, 65536 + 1029, {0, 0, 2, 0}},
    {&MONTH_ADD, 7, 7, VAST, 1030, {0, 0, 2, 0}},
    {&MONTH_ADD, 7, 7, VAST + 2, VAST + 5, {0, 0, 2, 0}},
    {&MONTH_ADD, 7, 7, VAST - 1, VAST - 1, {0, 0, 2, 0}},
    {&MONTH_ADD, 7, 7, 65538, 65536, {0, 0, 2, 0}},
    {&MONTH_ADD, 7, 7, VAST + 3, 1029, {8, 1030, 0, 0}},
    {&MONTH_ADD, 7, 7, 2, VAST + 1030, {7, 3, 0, 0}},
    {&MONTH_ADD, VAST + 7, VAST + 7, 3, 1030, {2, 0, 0, 0}},
    {&MONTH_ADD, VAST + 7, 7, 3, 1030, {2, 0, 0, 0}},
    {&MONTH_ADD, 7, VAST + 7, 3, 1030, {2, 0, 0, 0}},
};

static void vast_table(size_t i)
{
    make_reference_map(&sound);
    make_any_table(2, REFERENCE_WINDOW, 1);
    given border = {NULL, vast_tables[i].n_border};
    require_stated(vast_tables[i].operation == &MONTH_CLEAR
                       ? compare_clear(2, REFERENCE_WINDOW, vast_tables[i].n_table)
                       : compare_add_slices(&sound, vast_tables[i].n_keys, vast_tables[i].n_classes, border,
                                            vast_tables[i].n_table),
                   vast_tables[i].answer);
}

void group_vast_tables(void)
{
    for (size_t i = 0; i < COUNT(vast_tables); i++)
        if (begin_case())
            vast_table(i);
}

/* ---- Group: full months ---- */

static void add_in_vain(void)
{
    size_t n_border = listed.at.w;
    make_few_records(&sound, listed.m);
    add_to_month(&sound, n_border - 1, TABLE_CELLS);
    add_to_month(&sound, n_border, TABLE_CELLS - 1);
    add_to_month(&sound, n_border, 0);
    copy_map(&damaged, &sound);
    damage_at_random(&damaged);
    add_to_month(&damaged, n_border, TABLE_CELLS);
    make_few_records(&damaged, listed.m + 1);
    add_to_month(&damaged, n_border, TABLE_CELLS);
}

/* A thousand maps, with others in between that are refused; then more; and the month is cleared and begun anew. */
static void full_month(uint32_t m, window at)
{
    begin_month_inside(m, at, TABLE_CELLS);
    for (size_t maps = 0; maps < MOST_MAPS; maps++) {
        if (maps % 50 == 0 || maps == MOST_MAPS - 1)
            add_in_vain();
        make_few_records(&sound, m);
        add_to_month(&sound, at.w, TABLE_CELLS);
    }
    require_numbers(compare_add(&sound, at.w, TABLE_CELLS), 16, 0, 0, 0);
    require_numbers(compare_add(&sound, 0, TABLE_CELLS), 16, 0, 0, 0);
    add_in_vain();
    clear_month(m, at, TABLE_CELLS);
    add_to_month(&sound, at.w, TABLE_CELLS);
}

void group_full_months(void)
{
    static const window pixel = {0, 0, 1, 1};
    if (begin_case())
        full_month(0, pixel);
    if (begin_case())
        full_month(2, REFERENCE_WINDOW);
    if (begin_case())
        full_month(6, random_window(6, 256));
}

/* ---- Group: the largest sums ---- */

/* The whole of the largest picture, all of class 255, on a table with so many maps and this sum of the class. */
static void largest_sum(uint64_t maps, uint64_t sum, uint32_t refusal)
{
    const size_t cell = TABLE_CELLS - CELLS_OF_CLASS + OF_CLASS_SUM;
    make_picture(&sound, 12, 0);
    paint(&sound, ALL_255);
    make_any_table(12, whole_picture(12), maps);
    table[cell] = sum;
    lutniorad_answer answer = compare_add(&sound, 4096, TABLE_CELLS);
    require_numbers(answer, refusal, 0, refusal == 0 ? (uint32_t)maps + 1 : 0, 0);
    uint64_t added = ((const uint64_t *)left(3))[cell] - sum;
    require(added == (refusal == 0 ? MOST_PIXELS : 0), "another sum than the one written out");
}

/* Up to 2^32 and beyond; and at most what the maps can have, or one more. */
void group_largest_sums(void)
{
    const uint64_t pixels = MOST_PIXELS;
    if (begin_case()) {
        largest_sum(255, 255 * pixels, 0);
        largest_sum(256, 256 * pixels - 1, 0);
        largest_sum(999, 999 * pixels, 0);
        largest_sum(999, 999 * pixels + 1, 26);
        largest_sum(1000, 1000 * pixels, 16);
        largest_sum(1000, 1000 * pixels + 1, 26);
    }
}

/* ---- Group: random months ---- */

/* A map for the month at hand, made for its window or not, or a map of some other m. */
static void make_some_map(map *a)
{
    size_t most = most_cuts(listed.m < 7 ? listed.m : 7), kind = below(8);
    if (kind == 0)
        make_random_map(a);
    else if (kind < 4)
        make_map_around(a, listed.m, listed.at, (uint32_t)below(4));
    else
        make_map(a, listed.m, (shape)below(SHAPES), below((most >> below(16)) + 1));
}

static void random_step(void)
{
    size_t kind = below(10), n_border = near_length(listed.at.w), n_table = near_length(TABLE_CELLS);
    make_some_map(&sound);
    if (kind == 0)
        damage_at_random(&sound);
    if (kind == 1)
        clear_month(sound.m, random_window(listed.m, 1 << 10), n_table);
    else
        add_to_month(&sound, n_border, n_table);
}

/* Adds some map to the table at hand, with up to two cells spoiled. */
static void add_to_spoiled_table(void)
{
    for (size_t times = below(3); times > 0; times--) {
        size_t any = below(TABLE_CELLS), cell = below(2) == 0 ? any : any % TABLE_CLASSES;
        table[cell] = number_about(table[cell], below(NUMBERS_ABOUT));
    }
    make_some_map(&sound);
    size_t n_border = near_length(listed.at.w);
    compare_add(&sound, n_border, near_length(TABLE_CELLS));
}

static void random_month(void)
{
    uint32_t m = (uint32_t)below(13);
    begin_month_inside(m, random_window(m, 1 << 12), LONGER_TABLE);
    for (size_t steps = 4 + below(8); steps > 0; steps--)
        random_step();
    add_to_spoiled_table();
    make_any_table(listed.m, listed.at, below(MOST_MAPS + 2));
    add_to_spoiled_table();
}

void group_random_months(void)
{
    for (int i = 0; i < 1200; i++)
        if (begin_case())
            random_month();
}
