#include "maps.h"

#include "harness.h"

#include <stdlib.h>
#include <string.h>

/* ---- Maps ---- */

void copy_records(map *to, uint32_t m, size_t q, const void *keys, const void *classes)
{
    to->m = m;
    to->q = q;
    memcpy(to->keys, keys, q * sizeof *to->keys);
    memcpy(to->classes, classes, q * sizeof *to->classes);
}

void copy_map(map *to, const map *from)
{
    copy_records(to, from->m, from->q, from->keys, from->classes);
}

const uint32_t REFERENCE_KEYS[] = {5, 11, 12, 13, 14, 15, 20};
const uint8_t REFERENCE_CLASSES[] = {1, 2, 2, 3, 1, 1, 2};

void make_reference_map(map *a)
{
    copy_records(a, 2, REFERENCE_Q, REFERENCE_KEYS, REFERENCE_CLASSES);
}

uint32_t power_of_5(uint32_t exponent)
{
    uint32_t power = 1;
    for (uint32_t i = 0; i < exponent; i++)
        power *= 5;
    return power;
}

/* ---- Sound maps ---- */

size_t most_cuts(uint32_t exponent)
{
    return (((size_t)1 << 2 * exponent) - 1) / 3;
}

void cut_block(map *a, shape how, uint32_t exponent, uint32_t key, size_t cuts)
{
    if (cuts == 0) {
        a->keys[a->q++] = key;
        return;
    }
    cuts--;
    for (uint32_t digit = 1; digit <= 4; digit++) {
        size_t most = most_cuts(exponent - 1);
        size_t later = (4 - digit) * most; /* the quadrants after this one take no more */
        size_t least = cuts > later ? cuts - later : 0;
        size_t greatest = cuts < most ? cuts : most;
        size_t share = how == EVEN     ? cuts / (5 - digit)
                       : how == RAGGED ? least + below(greatest - least + 1)
                       : below(2) == 0 ? least
                                       : greatest;
        cut_block(a, how, exponent - 1, key + digit * power_of_5(exponent - 1), share);
        cuts -= share;
    }
}

void make_map(map *a, uint32_t m, shape how, size_t cuts)
{
    a->m = m;
    a->q = 0;
    cut_block(a, how, m, 0, cuts);
    paint(a, below(2) == 0 ? RANDOM : FEW);
}

void make_random_map(map *a)
{
    uint32_t m = (uint32_t)below(13);
    size_t most = most_cuts(m < 8 ? m : 8);
    size_t cuts = below(20) == 0 ? most : below((most >> below(16)) + 1);
    make_map(a, m, (shape)below(SHAPES), cuts);
}

const size_t pictures[] = {1, 2, 17};

void make_picture(map *a, uint32_t m, size_t number)
{
    a->m = m;
    a->q = 0;
    if (number == 0)
        cut_block(a, EVEN, m, 0, 0);
    for (uint32_t digit = 1; number > 0 && digit <= 4; digit++)
        cut_block(a, EVEN, m - 1, digit * power_of_5(m - 1), (number - 1) >> (digit - 1) & 1);
}

void paint(map *a, int how)
{
    static const uint8_t few[] = {0, 1, 2, 255};
    for (size_t i = 0; i < a->q; i++)
        a->classes[i] = how == RISING    ? (uint8_t)(i + 1)
                        : how == ALL_0   ? 0
                        : how == ALL_255 ? 255
                        : how == FEW     ? few[below(COUNT(few))]
                                         : (uint8_t)random_number();
}

uint8_t some_class(const map *a)
{
    size_t kind = below(8);
    return kind == 0                ? 0
           : kind == 1              ? 255
           : kind == 2 || a->q == 0 ? (uint8_t)random_number()
                                    : a->classes[below(a->q)];
}

void for_small_maps(map *a, void (*run)(void), int paints)
{
    for (uint32_t m = 0; m < COUNT(pictures); m++)
        for (size_t number = 0; number < pictures[m]; number++)
            for (int how = 0; how < paints; how++)
                if (begin_case()) {
                    make_picture(a, m, number);
                    paint(a, how);
                    run();
                }
}

void for_key_lists(map *a, uint32_t m, size_t values, size_t longest, void (*run)(void))
{
    size_t lists = 1;
    for (size_t q = 0; q <= longest; q++) {
        for (size_t list = 0; list < lists; list++) {
            if (!begin_case())
                continue;
            a->m = m;
            a->q = q;
            for (size_t i = 0, rest = list; i < q; i++, rest /= values + 1)
                a->keys[i] = rest % (values + 1) < values ? (uint32_t)(rest % (values + 1)) : UINT32_MAX;
            paint(a, FEW);
            run();
        }
        lists *= values + 1;
    }
}

/* ---- Damaged maps ---- */

static void insert_record(map *a, size_t i, uint32_t key)
{
    memmove(a->keys + i + 1, a->keys + i, (a->q - i) * sizeof *a->keys);
    memmove(a->classes + i + 1, a->classes + i, a->q - i);
    a->keys[i] = key;
    a->classes[i] = 0;
    a->q++;
}

void drop(map *a, size_t i)
{
    a->q--;
    memmove(a->keys + i, a->keys + i + 1, (a->q - i) * sizeof *a->keys);
    memmove(a->classes + i, a->classes + i + 1, a->q - i);
}

static void repeat(map *a, size_t i)
{
    insert_record(a, i, a->keys[i]);
}

void append(map *a, size_t i)
{
    insert_record(a, a->q, a->keys[i]);
}

static void end_early(map *a, size_t i)
{
    a->q = i;
}

static void swap_with_next(map *a, size_t i)
{
    size_t next = (i + 1) % a->q;
    uint32_t key = a->keys[i];
    a->keys[i] = a->keys[next];
    a->keys[next] = key;
}

/* What a 1 is worth at the place of the key's last digit that is not 0; of key 0, 5^m. */
static uint32_t last_place(uint32_t m, uint32_t key)
{
    uint32_t place = 1;
    while (place < power_of_5(m) && key / place % 5 == 0)
        place *= 5;
    return place;
}

size_t side_of_block(uint32_t m, uint32_t key)
{
    size_t side = 1;
    for (uint32_t place = last_place(m, key); place > 1; place /= 5)
        side *= 2;
    return side;
}

bool are_quadrants(uint32_t m, const uint32_t keys[4])
{
    const uint32_t place = last_place(m, keys[0]);
    for (uint32_t i = 1; i < 4; i++)
        if (keys[i] != keys[0] + i * place)
            return false;
    return keys[0] / place % 5 == 1;
}

uint32_t parent_of(uint32_t m, uint32_t key)
{
    const uint32_t place = last_place(m, key);
    return key - key / place % 5 * place;
}

bool cut_record(map *a, size_t i)
{
    const uint32_t key = a->keys[i], place = last_place(a->m, key) / 5;
    const uint8_t of_class = a->classes[i];
    if (place == 0 || a->q + 3 > MOST_RECORDS)
        return false;
    for (int times = 0; times < 3; times++)
        insert_record(a, i, 0);
    for (uint32_t digit = 1; digit <= 4; digit++, i++) {
        a->keys[i] = key + digit * place;
        a->classes[i] = of_class;
    }
    return true;
}

bool merge_record(map *a, size_t i)
{
    const uint32_t key = a->keys[i], digit = key / last_place(a->m, key) % 5;
    const size_t first = i + 1 - digit; /* of the four */
    if (digit == 0 || i + 1 < digit || first + 4 > a->q || !are_quadrants(a->m, a->keys + first))
        return false;
    a->keys[first] = parent_of(a->m, key);
    a->classes[first] = a->classes[i];
    for (int times = 0; times < 3; times++)
        drop(a, first + 1);
    return true;
}

static void take_parent(map *a, size_t i)
{
    a->keys[i] = parent_of(a->m, a->keys[i]);
}

void take_first_child(map *a, size_t i)
{
    a->keys[i] += last_place(a->m, a->keys[i]) / 5;
}

static void take_next_key(map *a, size_t i)
{
    a->keys[i]++;
}

static void take_previous_key(map *a, size_t i)
{
    a->keys[i]--;
}

static void clear_some_digit(map *a, size_t i)
{
    uint32_t place = power_of_5((uint32_t)below(a->m + 1));
    a->keys[i] -= a->keys[i] / place % 5 * place;
}

static void take_some_key(map *a, size_t i)
{
    a->keys[i] = (uint32_t)below(power_of_5(a->m));
}

static void take_any_number(map *a, size_t i)
{
    a->keys[i] = (uint32_t)random_number();
}

void become_a_quadrant(map *a, size_t i)
{
    for (size_t k = 0; k < a->q; k++)
        a->keys[k] += (uint32_t)(i % 4 + 1) * power_of_5(a->m);
    a->m++;
}

static void (*const damages[])(map *, size_t) = {
    drop,
    repeat,
    append,
    end_early,
    swap_with_next,
    take_parent,
    take_first_child,
    take_next_key,
    take_previous_key,
    clear_some_digit,
    take_some_key,
    take_any_number,
    become_a_quadrant,
};

const size_t n_damages = COUNT(damages);

void damage(map *a, size_t how, size_t i)
{
    damages[how](a, i);
}

void for_every_damage(const map *a, map *damaged, void (*run)(void))
{
    for (size_t i = 0; i < a->q; i++)
        for (size_t k = 0; k < n_damages; k++) {
            copy_map(damaged, a);
            damage(damaged, k, i);
            run();
        }
}

void for_every_key(const map *a, map *damaged, void (*run)(void))
{
    const uint32_t beyond = power_of_5(a->m) + 7;
    const uint32_t far[] = {125, 625, 65536, 1u << 31, (1u << 31) + 5, UINT32_MAX - 1, UINT32_MAX};
    for (size_t i = 0; i < a->q; i++)
        for (uint32_t k = 0; k < beyond + COUNT(far); k++) {
            copy_map(damaged, a);
            damaged->keys[i] = k < beyond ? k : far[k - beyond];
            run();
        }
}

/* Some record of a map, often one of the first or the last. */
static size_t some_record(const map *a)
{
    size_t any = below(a->q), few = below(a->q < 4 ? a->q : 4), kind = below(4);
    return kind == 0 ? few : kind == 1 ? a->q - 1 - few : any;
}

void damage_at_random(map *a)
{
    for (size_t times = 1 + below(2); times > 0 && a->q > 0; times--) {
        size_t how = below(n_damages);
        damage(a, how, some_record(a));
    }
}

/* ---- Windows ---- */

uint16_t side_of(uint32_t m)
{
    return (uint16_t)(1 << m);
}

window whole_picture(uint32_t m)
{
    window at = {0, 0, side_of(m), side_of(m)};
    return at;
}

bool is_inside(window at, uint32_t m)
{
    return at.h > 0 && at.w > 0 && at.r0 + at.h <= side_of(m) && at.c0 + at.w <= side_of(m);
}

size_t n_small_windows(uint32_t m)
{
    size_t values = side_of(m) + (size_t)2;
    return values * values * values * values;
}

window small_window(uint32_t m, size_t number)
{
    size_t values = side_of(m) + (size_t)2;
    window at = {(uint16_t)(number % values), (uint16_t)(number / values % values),
                 (uint16_t)(number / values / values % values), (uint16_t)(number / values / values / values)};
    return at;
}

/* A row or column, or the end of the last one. */
static size_t random_place(size_t side)
{
    size_t unit = (size_t)1 << below(12), any = below(side + 1), multiple = any / unit * unit;
    const size_t places[] = {any, multiple, multiple + 1, multiple > 0 ? multiple - 1 : 0, 0, side};
    size_t place = places[below(COUNT(places))];
    return place < side ? place : side;
}

typedef struct {
    size_t from, length;
} stretch;

static stretch random_stretch(size_t side, size_t longest)
{
    size_t a = random_place(side), b = random_place(side);
    size_t from = a < b ? a : b, to = a < b ? b : a;
    if (from == to) {
        from = from < side ? from : side - 1;
        to = from + 1;
    }
    size_t length = to - from < longest ? to - from : longest;
    stretch s = {below(2) == 0 ? from : to - length, length};
    return s;
}

window random_window(uint32_t m, size_t most_pixels)
{
    size_t most_rows = (size_t)1 << below(m + 1);
    if (most_rows > most_pixels)
        most_rows = most_pixels;
    stretch rows = random_stretch(side_of(m), most_rows), cols = random_stretch(side_of(m), most_pixels / most_rows);
    window at = {(uint16_t)rows.from, (uint16_t)cols.from, (uint16_t)rows.length, (uint16_t)cols.length};
    return at;
}

window thin_window(uint32_t m, size_t number)
{
    const uint16_t side = side_of(m), last = (uint16_t)(side - 1), middle = (uint16_t)(side / 2);
    const window windows[THIN_WINDOWS] = {
        {0, 0, 1, side},    {last, 1, 1, last}, {(uint16_t)(middle - 1), 0, 2, last},
        {0, 0, side, 1},    {1, last, last, 1}, {0, middle, side, 2},
        {last, last, 1, 1}, {last, 0, 1, 1},
    };
    return windows[number];
}

window wide_window(uint32_t m, size_t number)
{
    const uint16_t side = side_of(m), less = (uint16_t)(side - 1), least = (uint16_t)(side - 2);
    const window windows[WIDE_WINDOWS] = {
        {0, 0, side, side}, {1, 1, least, least}, {0, 0, less, less}, {1, 1, less, less}, {1, 0, least, less},
    };
    return windows[number];
}

/* Rows by where they lie to one of them, or columns so. */
enum { BEFORE, ON, BEHIND, AROUND, ALL, AWAY };

static stretch stretch_about(size_t place, size_t side, size_t reach, size_t way)
{
    const size_t rest = side - 1 - place;
    const size_t before = place < reach ? place : reach, behind = rest < reach ? rest : reach;
    const stretch stretches[WAYS] = {
        [BEFORE] = {place - before, before},
        [ON] = {place, 1},
        [BEHIND] = {place + 1, behind},
        [AROUND] = {place - before, before + 1 + behind},
        [ALL] = {0, side},
        [AWAY] = {(place + side / 2) % side, 1},
    };
    return stretches[way];
}

window window_about(uint32_t m, window pixel, size_t reach, size_t number)
{
    stretch rows = stretch_about(pixel.r0, side_of(m), reach, number / WAYS);
    stretch cols = stretch_about(pixel.c0, side_of(m), reach, number % WAYS);
    window at = {(uint16_t)rows.from, (uint16_t)cols.from, (uint16_t)rows.length, (uint16_t)cols.length};
    return at;
}

window nth_pixel(uint32_t m, size_t number)
{
    const uint16_t last = (uint16_t)(side_of(m) - 1), middle = (uint16_t)(side_of(m) / 2);
    const uint16_t row = (uint16_t)below(side_of(m)), col = (uint16_t)below(side_of(m));
    const window pixels[CHOSEN_PIXELS + 1] = {
        {0, 0, 1, 1},     {0, last, 1, 1}, {last, 0, 1, 1}, {last, last, 1, 1}, {(uint16_t)(middle - 1), middle, 1, 1},
        {row, col, 1, 1},
    };
    return pixels[number < CHOSEN_PIXELS ? number : CHOSEN_PIXELS];
}

uint32_t some_tile(uint32_t m, window at)
{
    enum { MOST_TILES = 1 << 13 };
    uint32_t least = 0;
    while (least < m && (size_t)at.h * at.w >> 2 * least > MOST_TILES)
        least++;
    return least + (uint32_t)below(m - least + 1);
}

/* How much of a stretch of `side` places from `from` on lies in one of `length` places from `begin` on. */
static size_t shared(size_t from, size_t side, size_t begin, size_t length)
{
    size_t first = from > begin ? from : begin;
    size_t end = from + side < begin + length ? from + side : begin + length;
    return end > first ? end - first : 0;
}

/* Appends the records of the block of side 2^exponent whose corner is in this row and column. */
static void cut_around(map *a, window at, uint32_t least, uint32_t exponent, uint32_t key, size_t row, size_t col)
{
    size_t side = (size_t)1 << exponent, half = side / 2;
    size_t pixels = shared(row, side, at.r0, at.h) * shared(col, side, at.c0, at.w);
    if (pixels == 0 || pixels == side * side || exponent <= least) {
        if (a->q == MOST_RECORDS)
            abort();
        a->keys[a->q++] = key;
        return;
    }
    for (uint32_t i = 0; i < 4; i++)
        cut_around(a, at, least, exponent - 1, key + (i + 1) * power_of_5(exponent - 1), row + i / 2 * half,
                   col + i % 2 * half);
}

void make_map_around(map *a, uint32_t m, window at, uint32_t least)
{
    a->m = m;
    a->q = 0;
    cut_around(a, at, least, m, 0, 0, 0);
    paint(a, below(2) == 0 ? RANDOM : FEW);
}

window random_window_on(map *a, size_t number, size_t most_pixels)
{
    window at = random_window(a->m, most_pixels);
    window other = random_window(a->m, most_pixels);
    if (number >= 2)
        make_map_around(a, a->m, number == 2 ? at : other, (uint32_t)below(4));
    return at;
}

/* ---- Files ---- */

size_t length_of_file(size_t q)
{
    return LUTNIORAD_FILE_BYTES(q);
}

size_t make_file(uint8_t file[ROOM_FOR_FILE], const map *a)
{
    size_t n = reference_sparse_write(a->m, a->keys, a->q, a->classes, a->q, file, ROOM_FOR_FILE).first;
    memset(file + n, 0, 16);
    return n;
}

void set_field(uint8_t *file, size_t field, uint32_t value)
{
    for (size_t i = 0; i < 4; i++)
        file[4 * field + i] = (uint8_t)(value >> 8 * i);
}

static uint32_t right_value(size_t field, uint32_t m, size_t q)
{
    const size_t values[FIELDS] = {length_of_file(q), m, q, HEADER, HEADER + 4 * q};
    return (uint32_t)values[field];
}

void set_header(uint8_t *file, uint32_t m, size_t q)
{
    for (size_t field = 0; field < FIELDS; field++)
        set_field(file, field, right_value(field, m, q));
}

/*
 * What a field is set to: its right value times one number and plus another. The first is the right value itself.
 * Others look like it when some of the 32 bits are left out, when the bytes are turned round, or when a product wraps.
 */
static const struct {
    uint32_t times, plus;
} spoils[] = {
    {1, 0},          {1, 1},        {0, 0},        {0, 13},    {0, UINT32_MAX}, {1, UINT32_MAX},
    {1, 4},          {1, 5},        {0, 1},        {0, 12},    {0, 19},         {0, 20},
    {0, 25},         {1, 256},      {0, 65535},    {0, 65536}, {0, 65537},      {1, 65536},
    {1, 1u << 30},   {0, 1u << 31}, {1, 1u << 31}, {256, 0},   {1u << 24, 0},   {0, UINT32_MAX - 3},
    {0, 0x33333333}, {5, 0},
};

const size_t n_spoils = COUNT(spoils);

uint32_t spoiled(const map *a, size_t field, size_t k)
{
    return right_value(field, a->m, a->q) * spoils[k].times + spoils[k].plus;
}
