/*
 * Runs the library and the independent program side by side, and compares every answer and every byte of every slice.
 *
 *     compare                      every group of cases below, always the same ones
 *     compare --seed N             the same with other random cases
 *     compare --seed N --case K    one case alone
 *     compare --long               goes on with new random cases until it is interrupted
 *
 * The status is 0 when all calls agree. The first that does not is shown, with the command that runs its case again.
 */
#include "harness.h"
#include "keys.h"
#include "many.h"
#include "maps.h"
#include "months.h"
#include "overlay.h"
#include "pairs.h"
#include "queries.h"
#include "salvage.h"
#include "sparse.h"
#include "tiles.h"
#include "views.h"
#include "why.h"
#include "windows.h"

#include <string.h>

/* ---- The case at hand, and its calls ---- */

/* The map and the file of the case at hand: a sound map, one that need not be sound, and one that came from a file. */
static map sound, damaged, read_map;
static uint8_t file[ROOM_FOR_FILE];

/*
 * A map that is taken for sound has each pixel in just one block, and a sparse one in no more than one. Larger pictures
 * would take too long to paint.
 */
static void require_painted(const map *a, size_t q, bool sparse)
{
    enum { MOST_PAINTED = 6 };
    static uint32_t raster[1 << 2 * MOST_PAINTED];
    if (a->m <= MOST_PAINTED)
        require((sparse ? reference_sparse_raster : reference_raster)(a->m, a->keys, q, whole_picture(a->m), raster),
                "a sound map does not paint every pixel once, or a sparse one paints some twice");
}

/*
 * A call, and the same for a sparse map: that does the same, but where the first is refused for a gap or for the number
 * of records. Returns the first one's answer.
 */
static lutniorad_answer compare_both(call c, const operation *sparse)
{
    lutniorad_answer answer = compare(c);
    if (answer.refusal != LUTNIORAD_GAP && answer.refusal != LUTNIORAD_BAD_COUNT) {
        compare_with(sparse, answer);
        return answer;
    }
    c.operation = sparse;
    compare(c);
    return answer;
}

static lutniorad_answer compare_check(const map *a, size_t n_keys, size_t n_classes)
{
    call c = {&CHECK, a->m, NO_TILE, NO_WINDOW, NO_CLASS, {{a->keys, n_keys}, {a->classes, n_classes}}};
    lutniorad_answer answer = compare_both(c, &SPARSE_CHECK);
    if (reference_sparse_check(a->m, a->keys, n_keys, a->classes, n_classes).refusal == 0)
        require_painted(a, n_keys, answer.refusal != 0);
    return answer;
}

static lutniorad_answer compare_read(size_t n, size_t n_keys, size_t n_classes)
{
    call c = {&READ, 0, NO_TILE, NO_WINDOW, NO_CLASS, {{file, n}, {NULL, n_keys}, {NULL, n_classes}}};
    return compare_both(c, &SPARSE_READ);
}

static lutniorad_answer compare_write(const map *a, size_t n_keys, size_t n_classes, size_t n_out)
{
    call c = {&WRITE, a->m, NO_TILE, NO_WINDOW, NO_CLASS, {{a->keys, n_keys}, {a->classes, n_classes}, {NULL, n_out}}};
    lutniorad_answer answer = compare_both(c, &SPARSE_WRITE);
    if (answer.refusal == 0)
        require(answer.first == length_of_file(n_keys), "the file has another length than the header says");
    return answer;
}

/* After a file of n bytes was read: the map so got, written, is the same file. */
static void write_what_was_read(lutniorad_answer answer, size_t n)
{
    copy_records(&read_map, answer.first, answer.second, left(1), left(2));
    compare_write(&read_map, read_map.q, read_map.q, n);
    require(memcmp(left(2), file, n) == 0, "what was read from a file is written as another file");
}

/* A map, sound or not, on slices of just its length: the check, and into a file and back. */
static void try_map(const map *a)
{
    size_t n = length_of_file(a->q);
    compare_check(a, a->q, a->q);
    if (compare_write(a, a->q, a->q, n).refusal != 0)
        return;
    memcpy(file, left(2), n);
    write_what_was_read(compare_read(n, a->q, a->q), n);
    require(read_map.m == a->m && read_map.q == a->q && memcmp(read_map.keys, a->keys, 4 * a->q) == 0
                && memcmp(read_map.classes, a->classes, a->q) == 0,
            "what was written is read as another map");
}

/* ---- Group: answers written out ---- */

static const uint8_t REFERENCE_FILE[] = {
    55, 0, 0, 0, 2,  0, 0, 0, 7,  0, 0, 0, 20, 0, 0, 0, 48, 0, 0, 0,                           /* the header */
    5,  0, 0, 0, 11, 0, 0, 0, 12, 0, 0, 0, 13, 0, 0, 0, 14, 0, 0, 0, 15, 0, 0, 0, 20, 0, 0, 0, /* the keys */
    1,  2, 2, 3, 1,  1, 2,                                                                     /* the classes */
};
enum { REFERENCE_LENGTH = sizeof REFERENCE_FILE };

static const struct {
    uint32_t m;
    size_t q;
    uint32_t keys[8];
    lutniorad_answer answer;
} stated_maps[] = {
    {2, 7, {5, 11, 12, 13, 14, 15, 20}, {0, 0, 7, 0}},
    {2, 6, {5, 11, 12, 13, 14, 15}, {5, 6, 0, 0}},         /* the last record removed */
    {2, 2, {5, 7}, {4, 1, 0, 0}},                          /* a pixel of the block before */
    {2, 7, {1, 11, 12, 13, 14, 15, 20}, {3, 0, 0, 0}},     /* digits 0 1 */
    {2, 7, {25, 11, 12, 13, 14, 15, 20}, {3, 0, 0, 0}},    /* 5^m */
    {2, 7, {11, 11, 12, 13, 14, 15, 20}, {5, 0, 0, 0}},    /* the first does not start at pixel 0 */
    {2, 7, {5, 11, 12, 14, 14, 15, 20}, {5, 3, 0, 0}},     /* a pixel is left out */
    {2, 8, {5, 11, 12, 13, 14, 15, 20, 20}, {4, 7, 0, 0}}, /* the picture was full */
    {2, 8, {5, 11, 12, 13, 14, 15, 20, 26}, {3, 7, 0, 0}},
    {0, 1, {0}, {0, 0, 1, 0}},
    {0, 1, {1}, {3, 0, 0, 0}},
    {0, 2, {0, 0}, {4, 1, 0, 0}},
    {12, 1, {0}, {0, 0, 1, 0}},
    {13, 1, {0}, {1, 0, 0, 0}},
    {13, 0, {0}, {1, 0, 0, 0}},
    {2, 0, {0}, {2, 0, 0, 0}},
};

static const struct {
    size_t field;
    uint8_t low_bytes[3]; /* what its three lower bytes are set to */
    lutniorad_answer answer;
} stated_files[] = {
    {0, {55, 0, 0}, {0, 0, 2, 7}}, {0, {54, 0, 0}, {9, 0, 0, 0}},   {4, {13, 0, 0}, {1, 0, 0, 0}},
    {8, {0, 0, 0}, {2, 0, 0, 0}},  {8, {1, 0, 1}, {2, 0, 0, 0}},    {8, {8, 0, 0}, {9, 8, 0, 0}},
    {8, {0, 0, 1}, {9, 8, 0, 0}},  {12, {21, 0, 0}, {9, 12, 0, 0}}, {16, {49, 0, 0}, {9, 16, 0, 0}},
};

/* The file of the reference map, byte by byte, and what its lengths and header decide. */
static void stated_reference_file(void)
{
    make_reference_map(&sound);
    require_numbers(compare_write(&sound, 7, 7, 54), 8, 55, 0, 0);
    require_numbers(compare_write(&sound, 7, 7, 55), 0, 0, 55, 0);
    require(memcmp(left(2), REFERENCE_FILE, REFERENCE_LENGTH) == 0, "another file than the one written out");
    memcpy(file, REFERENCE_FILE, REFERENCE_LENGTH);
    require_numbers(compare_read(54, 7, 7), 9, 0, 0, 0);
    require_numbers(compare_read(55, 6, 7), 8, 7, 0, 0);
    require_numbers(compare_read(55, 7, 6), 8, 7, 0, 0);
    require_numbers(compare_read(55, 7, 7), 0, 0, 2, 7);
    require(memcmp(left(1), REFERENCE_KEYS, sizeof REFERENCE_KEYS) == 0, "other keys than those written out");
    require(memcmp(left(2), REFERENCE_CLASSES, sizeof REFERENCE_CLASSES) == 0, "other classes than those written out");
    for (size_t i = 0; i < COUNT(stated_files); i++) {
        memcpy(file, REFERENCE_FILE, REFERENCE_LENGTH);
        memcpy(file + stated_files[i].field, stated_files[i].low_bytes, 3);
        require_stated(compare_read(55, 7, 7), stated_files[i].answer);
    }
}

/* The largest maps: 65,536 single pixels, and as many blocks of 16 by 16. One record more is too many. */
static void stated_largest_map(uint32_t m)
{
    make_map(&sound, m, EVEN, most_cuts(8));
    require_numbers(compare_check(&sound, sound.q, sound.q), 0, 0, 65536, 0);
    require_numbers(compare_check(&sound, sound.q + 1, sound.q + 1), 2, 0, 0, 0);
    require_numbers(compare_check(&sound, sound.q - 1, sound.q - 1), 5, 65535, 0, 0);
    require_numbers(compare_write(&sound, sound.q, sound.q, 327699), 8, 327700, 0, 0);
    require_numbers(compare_write(&sound, sound.q + 1, sound.q + 1, 327705), 2, 0, 0, 0);
    try_map(&sound);
    copy_map(&damaged, &sound);
    damaged.keys[damaged.q - 1] = damaged.keys[0];
    require_numbers(compare_check(&damaged, damaged.q, damaged.q), 4, 65535, 0, 0);
    if (m < 12) {
        become_a_quadrant(&sound, 0);
        require_numbers(compare_check(&sound, sound.q, sound.q), 5, 65536, 0, 0);
    }
}

static void group_written_out(void)
{
    for (size_t i = 0; i < COUNT(stated_maps); i++) {
        if (!begin_case())
            continue;
        copy_records(&damaged, stated_maps[i].m, stated_maps[i].q, stated_maps[i].keys, REFERENCE_FILE);
        require_stated(compare_check(&damaged, damaged.q, damaged.q), stated_maps[i].answer);
    }
    if (begin_case())
        stated_reference_file();
    for (uint32_t m = 8; m <= 12; m += 4)
        if (begin_case())
            stated_largest_map(m);
}

/* ---- Group: key lists ---- */

static void check_list(void)
{
    compare_check(&damaged, damaged.q, damaged.q);
}

/* Keys about each power of 5, alone and two together: all digits 0, 1 or 4; one digit among zeros; 5^m and beyond. */
static void keys_about_powers(uint32_t m)
{
    enum { ABOUT = 5 };
    uint32_t keys[ABOUT * 14];
    for (uint32_t k = 0; k < COUNT(keys) / ABOUT; k++) {
        uint32_t power = power_of_5(k); /* up to 5^13, still under 2^32 */
        const uint32_t about[ABOUT] = {power - 1, power, power + 1, 4 * (power / 5), (power - 1) / 4};
        memcpy(keys + ABOUT * k, about, sizeof about);
    }
    for (size_t i = 0; i < COUNT(keys) * COUNT(keys); i++) {
        const uint32_t two[] = {keys[i / COUNT(keys)], keys[i % COUNT(keys)]};
        copy_records(&damaged, m, 2, two, REFERENCE_CLASSES);
        compare_check(&damaged, 2, 2);
        if (two[0] == two[1])
            compare_check(&damaged, 1, 1);
    }
}

static void group_key_lists(void)
{
    for_key_lists(&damaged, 0, 4, 4, check_list);
    for_key_lists(&damaged, 1, 7, 5, check_list);
    for_key_lists(&damaged, 2, 27, 3, check_list);
    for (uint32_t m = 0; m <= 12; m++)
        if (begin_case())
            keys_about_powers(m);
}

/* ---- Group: small maps ---- */

/* Each m that is refused, or that is taken for the right one when only a part of its bits is looked at. */
static void every_m(void)
{
    const uint32_t m = sound.m;
    const uint32_t others[] = {m,         m + 1,    m - 1,          12,        13, 14, 16 + m, 255, 256 + m,
                               65536 + m, 1u << 31, (1u << 31) + m, UINT32_MAX};
    for (size_t i = 0; i < COUNT(others); i++) {
        copy_map(&damaged, &sound);
        damaged.m = others[i];
        try_map(&damaged);
    }
}

static void try_damaged(void)
{
    try_map(&damaged);
}

static void every_key(void)
{
    for_every_key(&sound, &damaged, try_damaged);
}

static void every_damage(void)
{
    for_every_damage(&sound, &damaged, try_damaged);
}

static void group_small_maps(void)
{
    for_small_maps(&sound, every_m, PAINTS);
    for_small_maps(&sound, every_key, PAINTS);
    for_small_maps(&sound, every_damage, PAINTS);
}

/* ---- Group: lengths ---- */

/* Slices up to two records longer than the map, each length with each other. */
static void every_length(void)
{
    size_t n = make_file(file, &sound);
    copy_map(&damaged, &sound);
    append(&damaged, 0);
    append(&damaged, 0);
    for (size_t n_keys = 0; n_keys <= damaged.q; n_keys++)
        for (size_t n_classes = 0; n_classes <= damaged.q; n_classes++) {
            compare_check(&damaged, n_keys, n_classes);
            compare_write(&damaged, n_keys, n_classes, length_of_file(damaged.q));
            compare_read(n, n_keys, n_classes);
        }
    for (size_t n_out = 0; n_out <= n + 3; n_out++)
        compare_write(&sound, sound.q, sound.q, n_out);
}

/* Which of several reasons comes first: each m with each length. */
static void reasons_together(void)
{
    static const uint32_t ms[] = {0, 1, 2, 12, 13, 255, 258, 1u << 31, UINT32_MAX};
    static const size_t records[] = {0, 1, 6, 7, 8};
    static const size_t out[] = {0, 1, 19, 20, 25, 54, 55, 56, 60, 100};
    make_reference_map(&damaged);
    append(&damaged, 0);
    for (size_t i = 0; i < COUNT(ms) * COUNT(records) * COUNT(records); i++) {
        size_t n_keys = records[i / COUNT(ms) % COUNT(records)];
        size_t n_classes = records[i / COUNT(ms) / COUNT(records)];
        damaged.m = ms[i % COUNT(ms)];
        compare_check(&damaged, n_keys, n_classes);
        for (size_t k = 0; k < COUNT(out); k++)
            compare_write(&damaged, n_keys, n_classes, out[k]);
    }
}

static void group_lengths(void)
{
    for_small_maps(&sound, every_length, PAINTS);
    if (begin_case())
        reasons_together();
}

/* ---- Group: files ---- */

/* Every two fields spoiled, each in every way, so that it shows which is looked at first. */
static void every_pair_of_fields(void)
{
    size_t n = make_file(file, &sound);
    for (size_t a = 0; a < FIELDS; a++)
        for (size_t b = a + 1; b < FIELDS; b++)
            for (size_t k = 0; k < n_spoils * n_spoils; k++) {
                set_header(file, sound.m, sound.q);
                set_field(file, a, spoiled(&sound, a, k % n_spoils));
                set_field(file, b, spoiled(&sound, b, k / n_spoils));
                compare_read(n, sound.q, sound.q);
            }
}

/* All fields together in the chief ways, on slices a little too short, just right and a little too long. */
static void all_fields(void)
{
    enum { CHIEF_HEADERS = 5 * 5 * 5 * 5 * 5 }; /* each of the fields in each of the chief ways */
    make_reference_map(&sound);
    size_t n = make_file(file, &sound);
    for (size_t k = 0; k < CHIEF_HEADERS; k++) {
        for (size_t field = 0, rest = k; field < FIELDS; field++, rest /= CHIEF_SPOILS)
            set_field(file, field, spoiled(&sound, field, rest % CHIEF_SPOILS));
        for (size_t i = 0; i < 9; i++)
            compare_read(n + i / 3 - 1, sound.q + i % 3 - 1, sound.q);
    }
}

/* Cut to every length, and longer than it should be; with the length field as it was, and as long as the slice. */
static void every_cut(void)
{
    size_t n = make_file(file, &sound);
    for (size_t cut = 0; cut <= n + 5; cut++) {
        set_header(file, sound.m, sound.q);
        compare_read(cut, sound.q, sound.q);
        set_field(file, 0, (uint32_t)cut);
        compare_read(cut, sound.q, sound.q);
    }
}

/* The header of a file of each number of records, on a slice of each length that some number of records has. */
static void every_count(void)
{
    make_file(file, &sound);
    for (size_t q = 0; q <= sound.q; q++)
        for (size_t counted = 0; counted <= sound.q + 1; counted++) {
            set_header(file, sound.m, counted);
            compare_read(length_of_file(q), sound.q, sound.q);
            set_field(file, 0, (uint32_t)length_of_file(q));
            compare_read(length_of_file(q), sound.q, sound.q);
        }
}

/* As many records as a file may have, and more, in a file that is right in all else. */
static void most_records(void)
{
    for (size_t q = MOST_RECORDS - 1; q < ROOM_FOR_RECORDS; q++) {
        set_header(file, 8, q);
        for (size_t i = HEADER; i < length_of_file(q); i++)
            file[i] = (uint8_t)random_number();
        for (size_t i = 0; i < 4; i++)
            compare_read(length_of_file(q), q - i / 2, q - i % 2);
    }
}

static void group_files(void)
{
    for_small_maps(&sound, every_cut, PAINTS);
    for_small_maps(&sound, every_count, PAINTS);
    for_small_maps(&sound, every_pair_of_fields, 1);
    if (begin_case())
        all_fields();
    if (begin_case())
        most_records();
}

/* ---- Group: largest maps ---- */

/* A map of as many records as there can be, damaged at the first and last records and in the middle. */
static void damage_largest_map(uint32_t m, shape how, size_t with)
{
    make_map(&sound, m, how, most_cuts(8));
    const size_t at[] = {0, 1, sound.q / 2, sound.q - 3, sound.q - 2, sound.q - 1};
    for (size_t i = 0; i < COUNT(at); i++) {
        copy_map(&damaged, &sound);
        damage(&damaged, with, at[i]);
        compare_check(&damaged, damaged.q, damaged.q);
    }
}

static void group_largest_maps(void)
{
    for (size_t with = 0; with < n_damages; with++) {
        if (begin_case())
            damage_largest_map(8, EVEN, with);
        for (shape how = DEEP; how < SHAPES; how++)
            if (begin_case())
                damage_largest_map(12, how, with);
    }
}

/* ---- Group: random maps ---- */

static void lengths_at_random(void)
{
    size_t n = make_file(file, &sound);
    size_t n_keys = near_length(sound.q);
    size_t n_classes = near_length(sound.q);
    size_t n_out = near_length(n);
    compare_read(n, n_keys, n_classes);
    copy_map(&damaged, &sound);
    for (int i = 0; i < NEAR; i++)
        append(&damaged, 0);
    compare_check(&damaged, n_keys, n_classes);
    compare_write(&damaged, n_keys, n_classes, n_out);
}

static void random_map(void)
{
    make_random_map(&sound);
    try_map(&sound);
    lengths_at_random();
    for (int i = 0; i < 6; i++) {
        copy_map(&damaged, &sound);
        damage_at_random(&damaged);
        compare_check(&damaged, damaged.q, damaged.q);
    }
    for (size_t i = 0; i < damaged.q; i++)
        damaged.keys[i] = (uint32_t)random_number();
    try_map(&damaged);
}

static void group_random_maps(void)
{
    for (int i = 0; i < 800; i++)
        if (begin_case())
            random_map();
}

/* ---- Group: random files ---- */

static void random_file(void)
{
    sound.m = (uint32_t)below(13);
    sound.q = 1 + below((size_t)1 << below(9));
    size_t n = near_length(length_of_file(sound.q));
    for (size_t i = 0; i < n; i++)
        file[i] = (uint8_t)random_number();
    if (below(20) > 0)
        set_header(file, sound.m, sound.q);
    if (below(2) == 0)
        set_field(file, 0, (uint32_t)n);
    for (size_t spoiled_fields = below(3); spoiled_fields > 0; spoiled_fields--) {
        size_t field = below(FIELDS);
        set_field(file, field, spoiled(&sound, field, below(n_spoils)));
    }
    size_t n_keys = near_length(sound.q);
    size_t n_classes = near_length(sound.q);
    lutniorad_answer answer = compare_read(n, n_keys, n_classes);
    if (answer.refusal == 0)
        write_what_was_read(answer, n);
}

static void group_random_files(void)
{
    for (int i = 0; i < 40000; i++)
        if (begin_case())
            random_file();
}

/* ---- Group: vast slices ---- */

/* A length must be taken whole: of these, the lower 32 bits alone would be answered otherwise. */
static const struct {
    const operation *operation;
    size_t lengths[MOST_SLICES];
    uint32_t length_field;
    lutniorad_answer answer;
} vast_calls[] = {
    {&CHECK, {VAST + 7, VAST + 7, 0}, 0, {2, 0, 0, 0}},
    {&CHECK, {VAST + 7, 7, 0}, 0, {2, 0, 0, 0}},
    {&CHECK, {7, VAST + 7, 0}, 0, {2, 0, 0, 0}},
    {&CHECK, {VAST, VAST, 0}, 0, {2, 0, 0, 0}},
    {&WRITE, {VAST + 7, VAST + 7, 55}, 0, {2, 0, 0, 0}},
    {&WRITE, {VAST + 7, 7, 55}, 0, {2, 0, 0, 0}},
    {&WRITE, {7, VAST + 7, 55}, 0, {2, 0, 0, 0}},
    {&WRITE, {7, 7, VAST}, 0, {0, 0, 55, 0}},
    {&WRITE, {7, 7, VAST + 54}, 0, {0, 0, 55, 0}},
    {&WRITE, {7, 7, VAST - 1}, 0, {0, 0, 55, 0}},
    {&READ, {55, VAST, VAST + 6}, 55, {0, 0, 2, 7}},
    {&READ, {55, VAST + 6, 7}, 55, {0, 0, 2, 7}},
    {&READ, {55, 7, VAST}, 55, {0, 0, 2, 7}},
    {&READ, {55, VAST + 7, 6}, 55, {8, 7, 0, 0}},
    {&READ, {VAST + 55, 7, 7}, 55, {9, 0, 0, 0}},
    {&READ, {VAST + 19, 7, 7}, 19, {9, 0, 0, 0}},
    {&READ, {VAST, 7, 7}, 0, {9, 0, 0, 0}},
    {&READ, {VAST - 1, 7, 7}, UINT32_MAX, {9, 8, 0, 0}},
};

static void vast_call(size_t i)
{
    make_reference_map(&sound);
    make_file(file, &sound);
    set_field(file, 0, vast_calls[i].length_field);
    const size_t *n = vast_calls[i].lengths;
    const operation *o = vast_calls[i].operation;
    lutniorad_answer answer = o == &CHECK   ? compare_check(&sound, n[0], n[1])
                              : o == &WRITE ? compare_write(&sound, n[0], n[1], n[2])
                                            : compare_read(n[0], n[1], n[2]);
    require_stated(answer, vast_calls[i].answer);
}

static void group_vast_slices(void)
{
    for (size_t i = 0; i < COUNT(vast_calls); i++)
        if (begin_case())
            vast_call(i);
}

/* ---- The run ---- */

static const group groups[] = {
    {"answers written out", group_written_out, false},
    {"key lists", group_key_lists, false},
    {"small maps", group_small_maps, false},
    {"lengths", group_lengths, false},
    {"files", group_files, false},
    {"vast slices", group_vast_slices, false},
    {"windows written out", group_windows_written_out, false},
    {"small windows", group_small_windows, false},
    {"queries written out", group_queries_written_out, false},
    {"small queries", group_small_queries, false},
    {"small mixtures", group_small_mixtures, false},
    {"runs of records", group_runs, true},
    {"refusals of windows", group_window_refusals, false},
    {"lengths of borders and answers", group_window_lengths, false},
    {"old contents", group_old_contents, false},
    {"windows on damaged maps", group_windows_on_damaged_maps, false},
    {"vast borders and answers", group_vast_windows, false},
    {"largest windows", group_largest_windows, false},
    {"largest maps", group_largest_maps, false},
    {"random maps", group_random_maps, true},
    {"random files", group_random_files, true},
    {"large windows", group_large_windows, true},
    {"random windows", group_random_windows, true},
    {"random mixtures", group_random_mixtures, true},
    {"the stack", group_stack, true},
    {"months written out", group_months_written_out, false},
    {"clearing months", group_clearing_months, false},
    {"small months", group_small_months, false},
    {"spoiled tables", group_spoiled_tables, false},
    {"refusals of months", group_month_refusals, false},
    {"old contents of months", group_month_old_contents, false},
    {"vast tables", group_vast_tables, false},
    {"full months", group_full_months, false},
    {"largest sums", group_largest_sums, false},
    {"random months", group_random_months, true},
    {"every number", group_every_number, false},
    {"digits", group_digits, true},
    {"tiles written out", group_tiles_written_out, false},
    {"small tiles", group_small_tiles, false},
    {"refusals of tiles", group_tile_refusals, false},
    {"many tiles", group_many_tiles, false},
    {"random tiles", group_random_tiles, true},
    {"lists of windows written out", group_lists_written_out, false},
    {"lengths of lists", group_list_lengths, false},
    {"small lists", group_small_lists, false},
    {"refusals of lists", group_list_refusals, false},
    {"lists on damaged maps", group_lists_on_damaged_maps, false},
    {"vast lists", group_vast_lists, false},
    {"large lists", group_large_lists, true},
    {"random lists", group_random_lists, true},
    {"reasons written out", group_reasons_written_out, false},
    {"small reasons", group_small_reasons, false},
    {"refusals of reasons", group_reason_refusals, false},
    {"large reasons", group_large_reasons, true},
    {"random reasons", group_random_reasons, true},
    {"small pairs", group_small_pairs, false},
    {"random pairs", group_random_pairs, true},
    {"small parts", group_small_parts, false},
    {"random parts", group_random_parts, true},
    {"small views", group_small_views, false},
    {"random views", group_random_views, true},
    {"sparse maps written out", group_sparse_written_out, false},
    {"small sparse maps", group_small_sparse_maps, false},
    {"lengths on sparse maps", group_sparse_lengths, false},
    {"refusals of sparse maps", group_sparse_refusals, false},
    {"damaged sparse maps", group_damaged_sparse_maps, false},
    {"sparse files", group_sparse_files, false},
    {"vast sparse slices", group_vast_sparse, false},
    {"large sparse maps", group_large_sparse_maps, true},
    {"random sparse maps", group_random_sparse_maps, true},
    {"single pixels", group_single_pixels, true},
    {"salvage written out", group_salvage_written_out, false},
    {"salvage of key lists", group_salvage_of_key_lists, false},
    {"lengths of salvage", group_salvage_lengths, false},
    {"refusals of salvage", group_salvage_refusals, false},
    {"salvage of small maps", group_salvage_of_small_maps, false},
    {"salvage of broken maps", group_salvage_of_broken_maps, true},
    {"salvage of blocks and pixels", group_salvage_of_blocks, true},
    {"most records of salvage", group_most_salvaged, true},
    {"vast slices of salvage", group_vast_salvage, false},
    {"random salvage", group_random_salvage, true},
    {"overlays written out", group_overlays_written_out, false},
    {"small overlays", group_small_overlays, false},
    {"parts of overlays", group_parts_of_overlays, true},
    {"lengths on overlays", group_overlay_lengths, false},
    {"refusals of overlays", group_overlay_refusals, false},
    {"damaged overlays", group_damaged_overlays, false},
    {"vast slices of overlays", group_vast_overlays, false},
    {"large overlays", group_large_overlays, true},
    {"joined overlays", group_joined_overlays, true},
    {"nested overlays", group_nested_overlays, true},
    {"random overlays", group_random_overlays, true},
};

int main(int argc, char **argv)
{
    return run_groups(groups, COUNT(groups), argc, argv);
}
