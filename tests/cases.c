/*
 * Writes the inputs of the window program's cases, each to a file NAME.in in the folder named on the command line. The
 * random numbers of a case hang on its name alone.
 */
#include "harness.h"
#include "maps.h"

#include <stdio.h>
#include <stdlib.h>

/* ---- What maps.c asks of the harness ---- */

static uint64_t random_state;

uint64_t random_number(void) /* the upper half of a linear congruence: the lower bits soon repeat */
{
    random_state = random_state * 6364136223846793005u + 1442695040888963407u;
    return random_state >> 32;
}

size_t below(size_t n)
{
    return (size_t)random_number() % n;
}

bool begin_case(void)
{
    return true;
}

/* ---- Inputs ---- */

static const char *folder;

/* Of the case at hand. */
static FILE *input;
static map the_map;
static uint8_t file[ROOM_FOR_FILE];

static void end_with(const char *complaint)
{
    perror(complaint);
    exit(2);
}

static void end_input(void)
{
    if (input != NULL && fclose(input) != 0)
        end_with(folder);
}

static void begin(const char *name)
{
    char path[FILENAME_MAX];
    end_input();
    snprintf(path, sizeof path, "%s/%s.in", folder, name);
    input = fopen(path, "wb");
    if (input == NULL)
        end_with(path);
    random_state = 0;
    for (const char *letter = name; *letter != '\0'; letter++)
        random_state = 31 * random_state + (uint64_t)*letter;
}

static void begin_numbered(const char *name, int number)
{
    char numbered[64];
    snprintf(numbered, sizeof numbered, "%s-%d", name, number);
    begin(numbered);
}

static void put_bytes(const uint8_t *bytes, size_t n)
{
    if (fwrite(bytes, 1, n, input) != n)
        end_with(folder);
}

static void put_window(window at)
{
    const uint16_t numbers[] = {at.r0, at.c0, at.h, at.w};
    for (size_t i = 0; i < COUNT(numbers); i++) {
        const uint8_t bytes[] = {(uint8_t)(numbers[i] % 256), (uint8_t)(numbers[i] / 256)};
        put_bytes(bytes, sizeof bytes);
    }
}

static void put_windows(const window *windows, size_t n)
{
    for (size_t i = 0; i < n; i++)
        put_window(windows[i]);
}

static void put_map(void)
{
    put_bytes(file, make_file(file, &the_map));
}

static const window REFERENCE_WINDOW = {0, 1, 3, 3};

/* The reference map and its window, with another header. */
static void put_reference(const uint32_t header[FIELDS])
{
    make_reference_map(&the_map);
    size_t n = make_file(file, &the_map);
    for (size_t field = 0; field < FIELDS; field++)
        set_field(file, field, header[field]);
    put_bytes(file, n);
    put_window(REFERENCE_WINDOW);
}

/* The first bytes of the reference window, up to seven. */
static void put_left_over(size_t n)
{
    static const uint8_t bytes[] = {0, 0, 1, 0, 3, 0, 3};
    put_bytes(bytes, n);
}

/* ---- Refused files ---- */

static const struct {
    const char *name;
    uint32_t header[FIELDS];
} headers[] = {
    {"file-length-0", {0, 2, 7, 20, 48}},
    {"file-length-4", {4, 2, 7, 20, 48}},
    {"file-length-19", {19, 2, 7, 20, 48}},
    {"file-length-20", {20, 2, 7, 20, 48}},
    {"file-length-54", {54, 2, 7, 20, 48}},
    {"file-length-56", {56, 2, 7, 20, 48}},
    {"file-length-63", {63, 2, 7, 20, 48}}, /* the window counts to the file */
    {"file-length-64", {64, 2, 7, 20, 48}}, /* the input ends inside the file */
    {"file-length-5020", {LUTNIORAD_PROGRAM_FILE_BYTES, 2, 7, 20, 48}},
    {"file-length-5021", {LUTNIORAD_PROGRAM_FILE_BYTES + 1, 2, 7, 20, 48}},
    {"file-length-65591", {65591, 2, 7, 20, 48}}, /* 55 in its lower bytes */
    {"file-length-turned-round", {55u << 24, 2, 7, 20, 48}},
    {"file-length-most", {UINT32_MAX, 2, 7, 20, 48}},
    {"file-m-13", {55, 13, 7, 20, 48}},
    {"file-m-258", {55, 258, 7, 20, 48}},
    {"file-m-turned-round", {55, 2u << 24, 7, 20, 48}},
    {"file-count-0", {55, 2, 0, 20, 48}},
    {"file-count-65537", {55, 2, 65537, 20, 48}},
    {"file-count-most", {55, 2, UINT32_MAX, 20, 48}},
    {"file-count-6", {55, 2, 6, 20, 44}},
    {"file-count-8", {55, 2, 8, 20, 52}},
    {"file-count-65536", {55, 2, 65536, 20, 48}},
    {"file-keys-at-21", {55, 2, 7, 21, 48}},
    {"file-keys-at-276", {55, 2, 7, 276, 48}},
    {"file-classes-at-49", {55, 2, 7, 20, 49}},
    {"file-classes-at-20", {55, 2, 7, 20, 20}},
    {"file-wrong-from-length-on", {5021, 13, 0, 21, 49}},
    {"file-wrong-from-m-on", {55, 13, 0, 21, 49}},
    {"file-wrong-from-no-count-on", {55, 2, 0, 21, 49}},
    {"file-wrong-from-count-on", {55, 2, 8, 21, 49}},
    {"file-wrong-from-keys-on", {55, 2, 7, 21, 49}},
};

static void write_headers(void)
{
    for (size_t i = 0; i < COUNT(headers); i++) {
        begin(headers[i].name);
        put_reference(headers[i].header);
    }
    static const uint8_t alone[] = {20, 0, 0, 0, 2, 0, 0, 0, 0, 0, 0, 0, 20, 0, 0, 0, 20, 0, 0, 0};
    begin("file-header-alone");
    put_bytes(alone, sizeof alone);
}

/* Inputs that end inside the file. */
static void write_cut_files(void)
{
    static const int lengths[] = {0, 1, 3, 4, 19, 20, 54};
    for (size_t i = 0; i < COUNT(lengths); i++) {
        begin_numbered("file-ends-at", lengths[i]);
        make_reference_map(&the_map);
        make_file(file, &the_map);
        put_bytes(file, (size_t)lengths[i]);
    }
}

/* ---- Refused maps ---- */

/* Of the reference map the first q records, or one more; with another key in one of them. */
static const struct {
    const char *name;
    size_t q, i;
    uint32_t key;
} damages[] = {
    {"map-3-first", 7, 0, 1},
    {"map-3-first-25", 7, 0, 25},
    {"map-3-middle", 7, 3, 2},
    {"map-3-last", 7, 6, 3},
    {"map-3-largest-key", 7, 6, UINT32_MAX},
    {"map-3-after-the-end", 8, 7, 26},
    {"map-4-second", 2, 1, 7},
    {"map-4-middle", 7, 4, 13},
    {"map-4-parent", 7, 2, 10},
    {"map-4-last", 7, 6, 15},
    {"map-4-after-the-end", 8, 7, 20},
    {"map-5-first", 7, 0, 10},
    {"map-5-middle", 7, 3, 14},
    {"map-5-last", 7, 6, 22},
    {"map-5-end", 7, 6, 21},
    {"map-5-last-removed", 6, 0, 5},
    {"map-5-one-record", 1, 0, 5},
};

/* What comes after a refused map counts for nothing. */
static void put_refused_map(void)
{
    put_map();
    put_window(REFERENCE_WINDOW);
    put_left_over(5);
}

static void write_damages(void)
{
    for (size_t k = 0; k < COUNT(damages); k++) {
        begin(damages[k].name);
        make_reference_map(&the_map);
        the_map.q = damages[k].q;
        the_map.keys[damages[k].i] = damages[k].key;
        put_refused_map();
    }
    begin("map-3-of-one-pixel");
    make_picture(&the_map, 0, 0);
    the_map.keys[0] = 1;
    put_refused_map();
    begin("map-4-of-one-pixel");
    make_picture(&the_map, 0, 0);
    append(&the_map, 0);
    put_refused_map();
}

/* ---- Maps of 1,000 records, as many as the program takes, and more ---- */

enum { THOUSAND = (LUTNIORAD_PROGRAM_FILE_BYTES - HEADER) / 5, CUTS = (THOUSAND - 1) / 3 };

static void write_damaged_thousand(void)
{
    begin("thousand-3-last");
    make_map(&the_map, 5, EVEN, CUTS);
    the_map.keys[THOUSAND - 1] = 5;
    put_refused_map();
    begin("thousand-4-middle");
    make_map(&the_map, 12, RAGGED, CUTS);
    the_map.keys[500] = the_map.keys[499];
    put_refused_map();
    begin("thousand-5-end");
    make_map(&the_map, 5, EVEN, CUTS + 1);
    the_map.q = THOUSAND;
    put_refused_map();
}

static void write_too_long(void)
{
    begin("file-of-5025-bytes");
    make_map(&the_map, 5, EVEN, CUTS + 1);
    the_map.q = THOUSAND + 1;
    put_refused_map();
    begin("file-of-5035-bytes"); /* of a sound map */
    make_map(&the_map, 5, EVEN, CUTS + 1);
    put_refused_map();
}

/* Classes as a camera gives them: few, and one of them 255. */
static void paint_few(void)
{
    static const uint8_t few[] = {0, 1, 2, 3, 255};
    for (size_t i = 0; i < the_map.q; i++)
        the_map.classes[i] = few[below(COUNT(few))];
}

static void put_random_windows(size_t n, size_t most_pixels)
{
    for (size_t i = 0; i < n; i++)
        put_window(random_window(the_map.m, most_pixels));
}

/* Whole rows and columns, single pixels, whole blocks at the corners, and windows a pixel off them. */
static void put_chief_windows(void)
{
    uint16_t side = side_of(the_map.m), half = (uint16_t)(side / 2), last = (uint16_t)(side - 1);
    const window windows[] = {
        {0, 0, side, side},
        {1, 1, (uint16_t)(side - 2), (uint16_t)(side - 2)},
        {0, 0, 1, side},
        {last, 0, 1, side},
        {half, 0, 1, side},
        {0, 0, side, 1},
        {0, last, side, 1},
        {0, (uint16_t)(half - 1), side, 2},
        {0, 0, 1, 1},
        {0, last, 1, 1},
        {last, 0, 1, 1},
        {last, last, 1, 1},
        {half, half, 1, 1},
        {0, 0, half, half},
        {0, half, half, half},
        {half, 0, half, half},
        {half, half, half, half},
        {1, 0, half, half},
        {(uint16_t)(half - 1), (uint16_t)(half - 1), half, half},
        {0, 1, side, side}, /* refused */
    };
    put_windows(windows, COUNT(windows));
}

static void write_thousands(void)
{
    static const struct {
        const char *name;
        uint32_t m;
        shape how;
    } thousands[] = {
        {"thousand-of-32-by-32", 5, EVEN},       {"thousand-of-64-by-64", 6, RAGGED},
        {"thousand-of-256-by-256", 8, EVEN},     {"thousand-of-1024-by-1024", 10, RAGGED},
        {"thousand-deep", 12, DEEP},             {"thousand-even", 12, EVEN},
    };
    for (size_t i = 0; i < COUNT(thousands); i++) {
        begin(thousands[i].name);
        make_map(&the_map, thousands[i].m, thousands[i].how, CUTS);
        paint_few();
        put_map();
        put_chief_windows();
        put_random_windows(12, 256);
    }
    begin("thousand-of-every-class");
    make_map(&the_map, 7, RAGGED, CUTS);
    put_map();
    put_window(whole_picture(the_map.m));
    put_random_windows(2, 1024);
}

/* Appends the records of a block at the west edge. Only blocks at that edge are cut, evenly from north to south. */
static void cut_at_west_edge(uint32_t exponent, uint32_t key, size_t cuts)
{
    if (cuts == 0) {
        the_map.keys[the_map.q++] = key;
        return;
    }
    const size_t shares[] = {(cuts - 1) / 2, 0, cuts / 2, 0};
    for (uint32_t i = 0; i < COUNT(shares); i++)
        cut_at_west_edge(exponent - 1, key + (i + 1) * power_of_5(exponent - 1), shares[i]);
}

/* Without its westmost column the picture has 1,000 openings, one for each record: no map here has a window of more. */
static void write_most_openings(void)
{
    static const window but_the_edge = {0, 1, 4096, 4095};
    begin("thousand-openings");
    the_map.m = 12;
    the_map.q = 0;
    cut_at_west_edge(the_map.m, 0, CUTS);
    paint_few();
    put_map();
    put_window(but_the_edge);
    put_window(whole_picture(the_map.m));
}

/* ---- Windows ---- */

/* Each window that begins and ends inside the picture. */
static void put_every_window(void)
{
    uint16_t side = side_of(the_map.m);
    for (uint16_t r0 = 0; r0 < side; r0++)
        for (uint16_t c0 = 0; c0 < side; c0++)
            for (uint16_t h = 1; h <= side - r0; h++)
                for (uint16_t w = 1; w <= side - c0; w++) {
                    window at = {r0, c0, h, w};
                    put_window(at);
                }
}

static void write_small_maps(void)
{
    begin("windows-every-one");
    make_reference_map(&the_map);
    put_map();
    put_every_window();
    for (int m = 0; m < 2; m++)
        for (int how = ALL_0; how <= ALL_255; how++) {
            begin_numbered(how == ALL_0 ? "class-0-m" : "class-255-m", m);
            make_picture(&the_map, (uint32_t)m, pictures[m] - 1);
            paint(&the_map, how);
            put_map();
            put_every_window();
        }
}

static const window refused[] = {
    {0, 1, 0, 3},     {0, 1, 3, 0},     {0, 0, 0, 0},         {2, 0, 3, 1},         {2, 0, 2, 1}, /* accepted */
    {0, 3, 1, 2},     {4, 0, 1, 1},     {0, 4, 1, 1},         {0, 0, 5, 4},         {0, 0, 4, 5},
    {65535, 0, 1, 1}, {0, 65535, 1, 1}, {65535, 65535, 1, 1}, {65535, 0, 2, 1},     {0, 65535, 1, 2},
    {1, 0, 65535, 1}, {0, 1, 1, 65535}, {4, 4, 65532, 65532}, {0, 0, 65535, 65535}, {256, 0, 1, 1},
    {0, 256, 1, 1},   {0, 0, 256, 1},   {0, 0, 1, 257},       {65535, 65535, 0, 0}, {3, 3, 1, 1}, /* accepted */
};

static void write_window_refusals(void)
{
    begin("windows-none");
    make_reference_map(&the_map);
    put_map();
    begin("windows-refused");
    put_map();
    put_windows(refused, COUNT(refused));
    begin("windows-refused-on-one-pixel");
    make_picture(&the_map, 0, 0);
    put_map();
    put_windows(refused, COUNT(refused));
    put_window(whole_picture(0));
    begin("windows-refused-on-the-largest");
    make_map(&the_map, 12, EVEN, 1);
    put_map();
    static const window off_by_one[] = {
        {0, 0, 4097, 1}, {0, 0, 1, 4097}, {4095, 0, 2, 1},         {0, 4095, 1, 2},
        {4096, 0, 1, 1}, {0, 4096, 1, 1}, {61440, 61440, 4096, 1}, {4095, 4095, 1, 1}, /* accepted */
    };
    put_windows(off_by_one, COUNT(off_by_one));
}

static void write_left_over(void)
{
    make_reference_map(&the_map);
    for (int n = 1; n < 8; n++) {
        begin_numbered("left-over", n);
        put_map();
        put_window(REFERENCE_WINDOW);
        put_left_over((size_t)n);
        begin_numbered("left-over-no-window", n);
        put_map();
        put_left_over((size_t)n);
    }
    for (int n = 1; n < 8; n += 3) {
        begin_numbered("left-over-after-refused", n);
        put_map();
        put_windows(refused, 3);
        put_left_over((size_t)n);
    }
}

static void write_large_windows(void)
{
    static const window large[] = {
        {0, 0, 4096, 4096}, {1, 1, 4094, 4094},      {0, 0, 1, 4096},
        {0, 4095, 4096, 1}, {1365, 2730, 1366, 683}, {4095, 4095, 1, 1},
    };
    for (int cuts = 0; cuts < 5; cuts += 2) {
        begin_numbered("large-windows", cuts);
        make_map(&the_map, 12, RAGGED, (size_t)cuts);
        paint_few();
        put_map();
        put_windows(large, COUNT(large));
    }
}

static void write_many_windows(void)
{
    begin("windows-300");
    make_map(&the_map, 6, RAGGED, 40);
    paint_few();
    put_map();
    put_random_windows(300, 256);
    begin("windows-500");
    make_map(&the_map, 5, EVEN, CUTS);
    put_map();
    for (size_t i = 0; i < 20; i++)
        put_windows(refused, COUNT(refused));
    put_left_over(3);
    for (int m = 1; m <= 12; m++) {
        begin_numbered("random-m", m);
        size_t most = most_cuts((uint32_t)m);
        size_t cuts = below((most < CUTS ? most : CUTS) + 1);
        make_map(&the_map, (uint32_t)m, (shape)below(SHAPES), cuts);
        paint_few();
        put_map();
        put_random_windows(10, 4096);
    }
}

int main(int argc, char **argv)
{
    if (argc != 2) {
        fprintf(stderr, "usage: cases FOLDER\n");
        return 2;
    }
    folder = argv[1];
    write_headers();
    write_cut_files();
    write_damages();
    write_damaged_thousand();
    write_too_long();
    write_thousands();
    write_most_openings();
    write_small_maps();
    write_window_refusals();
    write_left_over();
    write_large_windows();
    write_many_windows();
    end_input();
    return 0;
}
