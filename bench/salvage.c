/*
 * Salvage of sound maps, which must come back as they are, and of the lake with each of its faults. What must come back
 * then is known, since it is known what was broken; but for the blocks of gaps, which a select on a sparse map lists.
 */
#include "salvage.h"

#include "beside.h"
#include "summary.h"

#include <inttypes.h>
#include <stdio.h>

enum { CELLS_OF_ENTRY = 2 };

static map sound, broken;
static const rectangle nowhere; /* no call takes a window here */

/* ---- What must come back ---- */

static result must;

static void expect_nothing(void)
{
    measure(&library, NOTHING, &sound, nowhere, &must);
}

static void expect_record(uint32_t key, uint8_t class)
{
    must.out[must.answer.first] = key;
    must.bytes[must.answer.first++] = class;
}

static void expect_entry(uint32_t of, uint32_t number)
{
    uint32_t *entry = must.out + LOG + CELLS_OF_ENTRY * must.answer.second++;
    entry[0] = of;
    entry[1] = number;
}

static void expect_filled(uint32_t key)
{
    expect_record(key, NOT_SEEN);
    expect_entry(key, LUTNIORAD_GAP);
}

static void expect_sound(void)
{
    expect_nothing();
    for (size_t i = 0; i < sound.q; i++)
        expect_record(sound.keys[i], sound.classes[i]);
}

/* The gap that such a record leaves is its own block. Of two the second is dropped, behind as many as there are entries
 * that far. */
static void expect_tenth(uint32_t i, int fault)
{
    if (fault == TWICE) {
        expect_record(sound.keys[i], sound.classes[i]);
        expect_entry(i + must.answer.second + 1, LUTNIORAD_OVERLAP);
        return;
    }
    if (fault == GARBLED)
        expect_entry(i, LUTNIORAD_BAD_KEY);
    expect_filled(sound.keys[i]);
}

static void expect_tenths(int fault)
{
    for (uint32_t i = 0; i < sound.q; i++)
        if (is_tenth(i))
            expect_tenth(i, fault);
        else
            expect_record(sound.keys[i], sound.classes[i]);
}

/* The keys of the blocks that fill the gaps of a map without clear water. Returns how many there are. */
static uint32_t list_gaps(uint32_t keys[ROOM], const char *where)
{
    static uint16_t border[CELLS];
    const uint16_t side = (uint16_t)(1 << broken.m);
    lutniorad_answer answer =
        lutniorad_sparse_select(broken.m, broken.m, CLEAR, broken.keys, broken.q, broken.classes, broken.q, 0, 0, side,
                                side, CLEAR, border, CELLS, keys, ROOM);
    if (answer.refusal != 0)
        wrong("the gaps cannot be listed", where);
    return answer.first;
}

/* All records of such a map, and between them those blocks, by their keys. */
static void expect_gaps(const char *where)
{
    static uint32_t gaps[ROOM];
    uint32_t n = list_gaps(gaps, where), next = 0;
    for (size_t i = 0; i < broken.q; i++) {
        for (; next < n && gaps[next] < broken.keys[i]; next++)
            expect_filled(gaps[next]);
        expect_record(broken.keys[i], broken.classes[i]);
    }
    for (; next < n; next++)
        expect_filled(gaps[next]);
}

static void expect_mended(int fault, const char *where)
{
    expect_nothing();
    if (fault == NO_CLEAR || fault == EMPTY)
        expect_gaps(where);
    else
        expect_tenths(fault);
}

/* ---- The calls ---- */

static const program *asked;

static lutniorad_answer ask(const map *on, rectangle at, uint32_t number, size_t room, result *r)
{
    (void)at, (void)number;
    return asked->salvage(on->m, on->keys, on->q, on->classes, on->q, r->out, LOG, r->bytes, LOG, r->out + LOG, room);
}

static int64_t measure_program(const program *p, const map *on, const char *where)
{
    static result r;
    asked = p;
    measure_direct(ask, on, nowhere, 0, ROOM - LOG, &r);
    hold_answers(p, &r, &must, where);
    return r.instructions;
}

/* What must come back has to be sound. */
static void measure_salvage(cell *c, const map *on, const char *where)
{
    uint32_t q = must.answer.first;
    lutniorad_answer checked = lutniorad_check(on->m, must.out, q, must.bytes, q);
    c->library = measure_program(&library, on, where);
    if (checked.refusal != 0 || checked.first != q)
        wrong("what comes back is not sound", where);
    c->plain = measure_program(&plain, on, where);
    c->before = cell_before(c, where);
}

static int64_t measure_sound_check(const char *where)
{
    static result r;
    measure_direct(direct_check, &sound, nowhere, 0, 0, &r);
    if (r.answer.refusal != 0 || r.answer.first != sound.q)
        wrong("a sound map is refused", where);
    return r.instructions;
}

static lutniorad_answer copy(const map *on, rectangle at, uint32_t number, size_t room, result *r)
{
    static const lutniorad_answer none;
    (void)at, (void)number, (void)room;
    fastest_copy(on->keys, on->classes, on->q, r->out, r->bytes);
    return none;
}

static int64_t measure_copy(const char *where)
{
    static result r;
    measure_direct(copy, &sound, nowhere, 0, 0, &r);
    if (!has_records(&r, &sound))
        wrong("a copy is another map", where);
    return r.instructions;
}

/* ---- The tables ---- */

static void end_row(void)
{
    printf("\n");
    fflush(stdout);
}

/* Returns what was measured. */
static cell print_sound(int number)
{
    cell c = begin_cell(SALVAGE, &sound, number, 0);
    char where[LONGEST_CALL];
    name_call(&c, where);
    expect_sound();
    measure_salvage(&c, &sound, where);
    c.check = measure_sound_check(where);
    printf("| %-15s | %7zu | %9" PRId64 " |", map_name(&c), c.records, c.library);
    print_beside(0, (double)c.check, (double)c.library, c.check < FEW ? 1e9 : MOST_OF_CHECK);
    print_beside(0, (double)measure_copy(where), (double)c.library, 1e9);
    print_beside(0, (double)c.plain, (double)c.library, MOST_OF_PLAIN);
    end_row();
    return c;
}

static cell print_broken(int fault)
{
    cell c = begin_cell(SALVAGE_BROKEN, &broken, LAKE, fault);
    char where[LONGEST_CALL];
    uint32_t back;
    name_call(&c, where);
    expect_mended(fault, where);
    measure_salvage(&c, &broken, where);
    back = must.answer.first;
    printf("| %-14s | %7zu | %9" PRIu32 " | %7" PRIu32 " | %9" PRId64 " | %8.1f |", window_name(&c), c.records, back,
           must.answer.second, c.library, (double)c.library / (double)(c.records + back));
    print_beside(0, (double)c.plain, (double)c.library, MOST_OF_PLAIN);
    end_row();
    return c;
}

static int print_all_sound(cell *cells, int n)
{
    printf("\nSalvage of sound maps, which come back as they are, with an empty log: beside the check of the same map, "
           "beside a copy of its keys and classes, and beside plain C. * marks what is over %.0f times the check, "
           "where that takes %d instructions or more, or over %.1f times plain C.\n\n"
           "| sound map       | records |   salvage |     check |   ratio |      copy |   ratio |   plain C |   ratio "
           "|\n"
           "| :-------------- | ------: | --------: | --------: | ------: | --------: | ------: | --------: | ------: "
           "|\n",
           MOST_OF_CHECK, FEW, MOST_OF_PLAIN);
    for (int number = 0; number < MAPS; number++) {
        make_map(&sound, number);
        cells[n++] = print_sound(number);
    }
    return n;
}

static int print_all_broken(cell *cells, int n)
{
    make_map(&sound, LAKE);
    printf("\nSalvage of the lake, %zu records, each tenth of which is missing, has a malformed key or stands there "
           "twice; without clear water; and without any record. So many records the broken map has, so many come "
           "back, and the log has so many entries. For each: the instructions by the records of both maps.\n\n"
           "| broken lake    | records | come back | entries |   salvage | for each |   plain C |   ratio |\n"
           "| :------------- | ------: | --------: | ------: | --------: | -------: | --------: | ------: |\n",
           sound.q);
    for (int fault = 0; fault < FAULTS; fault++) {
        break_map(&broken, &sound, fault);
        cells[n++] = print_broken(fault);
    }
    return n;
}

int print_salvage(cell *cells, int n)
{
    n = print_all_sound(cells, n);
    return print_all_broken(cells, n);
}
