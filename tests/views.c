#include "views.h"

#include "questions.h"

#include <stdio.h>
#include <string.h>

/* ---- The questions of the case at hand ---- */

/* The same of each map: about one window, with some tiles, and about some classes. */
enum { TILES = 2, ASKED = 5 };

static struct {
    window at;
    uint32_t tiles[TILES];
    uint8_t classes[ASKED];
    uint64_t table[TABLE_CELLS]; /* of a month, to which each map is added */
} asked;

/* A table of the window, with up to two maps in it. No call need have made it. */
static void make_table(uint32_t m)
{
    const window at = asked.at;
    const uint64_t maps = below(3), pixels = (uint64_t)at.h * at.w;
    const uint64_t head[] = {m, at.r0, at.c0, at.h, at.w, maps};
    const uint64_t most[CELLS_OF_CLASS] = {pixels, pixels, maps * pixels, maps};
    memcpy(asked.table, head, sizeof head);
    for (size_t i = TABLE_CLASSES; i < TABLE_CELLS; i++)
        asked.table[i] = below((size_t)most[(i - TABLE_CLASSES) % CELLS_OF_CLASS] + 1);
}

/* Number 0 is asked without a tile, and each other with one. */
static question opening(const map *a, size_t number)
{
    question q = {number == 0 ? &OPEN : &OPEN_TILED, a, number == 0 ? NO_TILE : asked.tiles[number - 1], asked.at,
                  NO_CLASS};
    return q;
}

static question selection(const map *a, size_t number, uint8_t of_class)
{
    question q = opening(a, number);
    q.operation = number == 0 ? &SELECT : &SELECT_TILED;
    q.about = of_class;
    return q;
}

/* ---- What is kept of a map ---- */

/* All that is kept in the case at hand, one number after another. */
enum { ROOM_FOR_NUMBERS = 1 << 23 };
static uint32_t numbers[ROOM_FOR_NUMBERS];
static size_t n_numbers;

static void keep(uint32_t number)
{
    require(n_numbers < COUNT(numbers), "there is no room for all that is kept");
    numbers[n_numbers++] = number;
}

static void keep_cells(const uint32_t *cells, size_t n)
{
    for (size_t i = 0; i < n; i++)
        keep(cells[i]);
}

static void keep_answer(lutniorad_answer answer)
{
    const uint32_t cells[] = {answer.refusal, answer.place, answer.first, answer.second};
    keep_cells(cells, COUNT(cells));
}

/* Key and class of each. */
static void keep_records(const map *a, size_t from, size_t n)
{
    for (size_t i = from; i < from + n; i++) {
        keep(a->keys[i]);
        keep(a->classes[i]);
    }
}

static void keep_map(const map *a)
{
    keep_records(a, 0, a->q);
}

/* The records with a pixel in the window, in the order of the map, found by their pixels. */
static void keep_view(const map *a)
{
    static uint32_t raster[MOST_PIXELS];
    static bool has_a_pixel[MOST_RECORDS];
    memset(has_a_pixel, 0, a->q * sizeof *has_a_pixel);
    require(reference_raster(a->m, a->keys, a->q, asked.at, raster), "a sound map does not paint every pixel once");
    for (size_t p = 0; p < (size_t)asked.at.h * asked.at.w; p++)
        has_a_pixel[raster[p]] = true;
    for (size_t i = 0; i < a->q; i++)
        if (has_a_pixel[i])
            keep_records(a, i, 1);
}

/* The index of the first record of each opening. */
static void keep_firsts(const map *a)
{
    const size_t n = ask_in_full(opening(a, 0));
    const uint32_t *cells = left(3);
    for (size_t i = 0; i < n; i += 3)
        keep(cells[i + 1]);
}

/* Key and count of each opening, and its records in place of the index. */
static void keep_openings(question q)
{
    const lutniorad_answer answer = ask(q, q.at.w, enough_for(q));
    const uint32_t *cells = left(3);
    require(answer.refusal == 0, "a window inside the picture is refused");
    keep_answer(answer);
    for (size_t i = 0; i < answer.first; i++, cells += 3) {
        keep(cells[0]);
        keep(cells[2]);
        keep_records(q.map, cells[1], cells[2]);
    }
}

static void keep_selected(question q)
{
    const lutniorad_answer answer = ask(q, q.at.w, enough_for(q));
    keep_answer(answer);
    keep_cells(left(3), answer.first);
}

static void keep_selections(const map *a)
{
    for (size_t i = 0; i < (1 + TILES) * ASKED; i++)
        keep_selected(selection(a, i / ASKED, asked.classes[i % ASKED]));
}

static void keep_existences(const map *a)
{
    for (size_t i = 0; i < ASKED; i++) {
        question exist = {&EXIST, a, NO_TILE, asked.at, asked.classes[i]};
        keep_answer(ask(exist, asked.at.w, 0));
    }
}

static void keep_report(const map *a)
{
    uint32_t totals[CLASSES];
    keep_answer(take_totals(a, asked.at, totals));
    keep_cells(totals, COUNT(totals));
}

/* The window's line among those of three windows; the others are the first and the last pixel of the picture. */
static void keep_line(const map *a)
{
    const uint16_t last = (uint16_t)(side_of(a->m) - 1);
    const window list[] = {{0, 0, 1, 1}, asked.at, {last, last, 1, 1}};
    const given keys = {a->keys, a->q}, classes = {a->classes, a->q}, windows = {list, 4 * COUNT(list)};
    const given border = {NULL, asked.at.w}, out = {NULL, LUTNIORAD_WINDOWS_CELLS(COUNT(list))};
    call c = {&WINDOWS, a->m, NO_TILE, NO_WINDOW, NO_CLASS, {keys, classes, windows, border, out}};
    keep_answer(compare(c));
    keep_cells((const uint32_t *)left(4) + LUTNIORAD_WINDOWS_CELLS(1), LUTNIORAD_WINDOWS_CELLS(1));
}

static void keep_table(const map *a)
{
    const given keys = {a->keys, a->q}, classes = {a->classes, a->q};
    const given border = {NULL, asked.at.w}, table = {asked.table, TABLE_CELLS};
    call c = {&MONTH_ADD, a->m, NO_TILE, NO_WINDOW, NO_CLASS, {keys, classes, border, table}};
    keep_answer(compare(c));
    keep_cells(left(3), TABLE_CELLS * sizeof *asked.table / sizeof *numbers);
}

/* On an answer slice that is empty, and on one that is too short by one. */
static void keep_refused(question q)
{
    const lutniorad_answer answer = ask(q, q.at.w, 0);
    keep_answer(answer);
    keep_answer(ask(q, q.at.w, too_short(answer.place)));
}

static void keep_refusals(const map *a)
{
    for (size_t i = 0; i <= 1; i++) {
        keep_refused(opening(a, i));
        keep_refused(selection(a, i, asked.classes[0]));
    }
}

/* The parts of what is kept of a map. From SELECTED on they are the same where the views are. */
enum {
    RECORDS, /* all of the map */
    FIRSTS,
    VIEW,
    SELECTED,
    EXISTING,
    REPORTED,
    LINE,
    TABLE,
    REFUSED,
    OPENED, /* without a tile, and behind it with each */
    PARTS = OPENED + 1 + TILES
};

/* What keeps it, and what is said where the views are the same and it is not. */
static const struct {
    void (*keep)(const map *a);
    const char *otherwise;
} parts[] = {
    [RECORDS] = {keep_map, NULL},
    [FIRSTS] = {keep_firsts, NULL},
    [VIEW] = {keep_view, NULL},
    [SELECTED] = {keep_selections, "the views are the same, and the keys of a class are not"},
    [EXISTING] = {keep_existences, "the views are the same, and the answers whether a class is there are not"},
    [REPORTED] = {keep_report, "the views are the same, and the pixels of each class are not"},
    [LINE] = {keep_line, "the views are the same, and the lines among other windows are not"},
    [TABLE] = {keep_table, "the views are the same, and the tables of the month are not"},
    [REFUSED] = {keep_refusals, "the views are the same, and the refusals for want of room are not"},
    [OPENED] = {NULL, "the views are the same, and the openings with their records are not"},
};

/* Each part is from one number on to before the next part. */
typedef struct {
    size_t from[PARTS + 1];
} sight;

/* Asks all questions of the case at hand. */
static sight look_at(const map *a)
{
    sight s;
    for (size_t part = 0; part < PARTS; part++) {
        s.from[part] = n_numbers;
        if (part < OPENED)
            parts[part].keep(a);
        else
            keep_openings(opening(a, part - OPENED));
    }
    s.from[PARTS] = n_numbers;
    return s;
}

static size_t length(const sight *s, size_t part)
{
    return s->from[part + 1] - s->from[part];
}

static const uint32_t *numbers_of(const sight *s, size_t part)
{
    return numbers + s->from[part];
}

static bool is_same(const sight *a, const sight *b, size_t part)
{
    return length(a, part) == length(b, part) &&
           memcmp(numbers_of(a, part), numbers_of(b, part), length(a, part) * sizeof *numbers) == 0;
}

/* ---- Two maps beside each other ---- */

static void show(const sight *s)
{
    enum { MOST_SHOWN = 100 };
    const uint32_t *records = numbers_of(s, RECORDS);
    const size_t n = length(s, RECORDS) / 2;
    printf("map of %zu records, by key and class", n);
    for (size_t i = 0; i < n && i < MOST_SHOWN; i++)
        printf("%s %u %u", i == 0 ? ":" : ",", (unsigned)records[2 * i], (unsigned)records[2 * i + 1]);
    printf("%s\n", n > MOST_SHOWN ? ", ..." : "");
}

/* If it does not hold, both maps are shown too, since the last call may have been about another. */
static void require_of(const sight *a, const sight *b, bool holds, const char *otherwise)
{
    if (!holds) {
        printf("window: r0 %d, c0 %d, h %d, w %d\n", asked.at.r0, asked.at.c0, asked.at.h, asked.at.w);
        show(a);
        show(b);
    }
    require(holds, otherwise);
}

/* What two maps can be to each other, and how often they were that. */
enum {
    OTHER_CLASSES, /* their views have the same keys, and not the same classes */
    OTHER_KEYS,    /* their views have not the same keys */
    SAME_FIRSTS,   /* their views are the same, and the indices of first records too; the maps are not */
    GREATER,       /* their views are the same, and an index is greater on the second */
    LESS,
    OF_SMALL_MAPS,
    FAR = OF_SMALL_MAPS, /* an index is greater or less by half of MOST_RECORDS */
    FEWER,               /* a map filled anew has fewer records than the map before */
    MORE,
    OF_MAPS
};
static size_t met[OF_MAPS];

static void forget_met(void)
{
    memset(met, 0, sizeof met);
}

static void require_met(size_t n)
{
    for (size_t i = 0; i < n; i++)
        require(met[i] > 0, "something that two maps can be to each other was not met");
}

static void count_same(const sight *a, const sight *b)
{
    const uint32_t *firsts = numbers_of(a, FIRSTS), *other_firsts = numbers_of(b, FIRSTS), far = MOST_RECORDS / 2;
    met[SAME_FIRSTS] += is_same(a, b, FIRSTS) && !is_same(a, b, RECORDS);
    for (size_t i = 0; i < length(a, FIRSTS); i++) {
        met[GREATER] += firsts[i] < other_firsts[i];
        met[LESS] += firsts[i] > other_firsts[i];
        met[FAR] += firsts[i] + far <= other_firsts[i] || firsts[i] >= other_firsts[i] + far;
    }
}

static void count_other(const sight *a, const sight *b)
{
    bool same_keys = length(a, VIEW) == length(b, VIEW);
    for (size_t i = 0; same_keys && i < length(a, VIEW); i += 2)
        same_keys = numbers_of(a, VIEW)[i] == numbers_of(b, VIEW)[i];
    met[same_keys ? OTHER_CLASSES : OTHER_KEYS]++;
}

/* Are their views the same? What else is the same goes by that. */
static bool have_same_view(const sight *a, const sight *b)
{
    const bool same = is_same(a, b, VIEW);
    for (size_t part = SELECTED; same && part < PARTS; part++)
        require_of(a, b, is_same(a, b, part), parts[part < OPENED ? part : OPENED].otherwise);
    for (size_t part = OPENED; !same && part < PARTS; part++)
        require_of(a, b, !is_same(a, b, part), "the views are not the same, and the openings with their records are");
    if (same)
        count_same(a, b);
    else
        count_other(a, b);
    return same;
}

/* ---- Group: small views ---- */

/* In each paint the class hangs on the key: by its remainder in the first, and in each other some have the next. */
enum { PAINTS_BY_KEY = 4 };
static const uint8_t paint_classes[] = {0, 1, 2, 255};

static void paint_by_key(map *a, size_t how)
{
    for (size_t i = 0; i < a->q; i++) {
        const uint32_t key = a->keys[i], of = key % 3 + 1 == how ? key + 1 : key;
        a->classes[i] = paint_classes[of % COUNT(paint_classes)];
    }
}

/* With every tile under m, and about every class that is painted and one that is not. */
static void begin_small_questions(uint32_t m, window at)
{
    asked.at = at;
    for (uint32_t i = 0; i < TILES; i++)
        asked.tiles[i] = i < m ? i : m;
    for (size_t i = 0; i < ASKED; i++)
        asked.classes[i] = i < COUNT(paint_classes) ? paint_classes[i] : 3;
    make_table(m);
    n_numbers = 0;
}

/* Every picture in every paint, and each beside each. */
static void try_small_views(uint32_t m, window at)
{
    enum { MOST_PICTURES = 17 };
    static map picture;
    static sight sights[MOST_PICTURES * PAINTS_BY_KEY];
    begin_small_questions(m, at);
    for (size_t i = 0; i < pictures[m] * PAINTS_BY_KEY; i++) {
        make_picture(&picture, m, i / PAINTS_BY_KEY);
        paint_by_key(&picture, i % PAINTS_BY_KEY);
        sights[i] = look_at(&picture);
        for (size_t k = 0; k < i; k++)
            have_same_view(&sights[k], &sights[i]);
    }
}

void group_small_views(void)
{
    bool all = true;
    forget_met();
    for (uint32_t m = 0; m < COUNT(pictures); m++)
        for (size_t number = 0; number < n_small_windows(m); number++) {
            const window at = small_window(m, number);
            if (!is_inside(at, m))
                continue;
            if (begin_case())
                try_small_views(m, at);
            else
                all = false;
        }
    require_met(all ? OF_SMALL_MAPS : 0);
}

/* ---- Group: random views ---- */

/* The case at hand: a sound map, one that has its view and is filled anew, and one with a record changed. */
static map sound, filled, changed;

/* The view of the sound map: key and class of each record. */
static const uint32_t *view;
static size_t n_view; /* numbers */

/* How the picture is filled around the view: by the largest blocks, by any, or by as many as there is room for. */
typedef enum { COARSE, ANY, FINE, FILLS } fill;

/* What of the view comes next, and how many cuts there is room for. */
typedef struct {
    size_t next, cuts;
} filling;

/* A block without a record of the view is cut anew, and one with some in it is filled quadrant by quadrant. */
static void fill_block(filling *f, fill how, uint32_t exponent, uint32_t key)
{
    if (f->next == n_view || view[f->next] >= key + power_of_5(exponent)) {
        const size_t most = f->cuts < most_cuts(exponent) ? f->cuts : most_cuts(exponent);
        const size_t cuts = how == COARSE ? 0 : how == FINE ? most : below((most >> below(16)) + 1);
        cut_block(&filled, (shape)below(SHAPES), exponent, key, cuts);
        f->cuts -= cuts;
    } else if (view[f->next] == key) {
        filled.keys[filled.q++] = key;
        f->next += 2;
    } else {
        for (uint32_t digit = 1; digit <= 4; digit++)
            fill_block(f, how, exponent - 1, key + digit * power_of_5(exponent - 1));
    }
}

static void fill_picture(fill how, size_t cuts)
{
    filling f = {0, cuts};
    filled.m = sound.m;
    filled.q = 0;
    fill_block(&f, how, sound.m, 0);
}

/* With other classes outside the view, and up to so many records, if the largest blocks are not more. */
static void fill_anew(fill how, size_t most_records)
{
    fill_picture(COARSE, 0);
    require(filled.q <= sound.q, "the largest blocks around a view are more than those of the map");
    fill_picture(how, filled.q < most_records ? (most_records - filled.q) / 3 : 0);
    paint(&filled, below(2) == 0 ? RANDOM : FEW);
    for (size_t i = 0, next = 0; i < filled.q && next < n_view; i++)
        if (filled.keys[i] == view[next]) {
            filled.classes[i] = (uint8_t)view[next + 1];
            next += 2;
        }
}

/* How a record is changed, and how often that left another view and the same. */
typedef enum { CLASS, CUT, MERGED, CHANGES } change;
static size_t met_changes[CHANGES][2];

static bool change_record(change how, size_t i)
{
    if (how == CUT)
        return cut_record(&changed, i);
    if (how == MERGED)
        return merge_record(&changed, i);
    changed.classes[i] = (uint8_t)(changed.classes[i] + 1 + below(CLASSES - 1));
    return true;
}

static size_t some_record_in_view(void)
{
    const uint32_t key = view[2 * below(n_view / 2)];
    size_t i = 0;
    while (sound.keys[i] != key)
        require(++i < sound.q, "the map has not the record that is in its view");
    return i;
}

/* A record of the view, or any. False where some were tried, and none can be changed so. */
static bool change_some_record(change how, bool in_view)
{
    enum { TRIES = 20 };
    copy_map(&changed, &sound);
    for (int i = 0; i < TRIES; i++)
        if (change_record(how, in_view ? some_record_in_view() : below(sound.q)))
            return true;
    return false;
}

static void begin_random_questions(void)
{
    const map *const maps[] = {&sound, &filled, &changed};
    for (size_t i = 0; i < TILES; i++)
        asked.tiles[i] = some_tile(sound.m, asked.at);
    for (size_t i = 0; i < COUNT(maps); i++)
        asked.classes[i] = some_class(maps[i]);
    for (size_t i = COUNT(maps); i < ASKED; i++)
        asked.classes[i] = (uint8_t)view[2 * below(n_view / 2) + 1];
    make_table(sound.m);
}

/* The map at hand beside one filled anew, and both beside one changed at a record. */
static void try_views(window at, fill how, size_t most_records)
{
    const change by = (change)below(CHANGES);
    const bool in_view = below(2) == 0;
    asked.at = at;
    n_numbers = 0;
    keep_view(&sound);
    view = numbers;
    n_view = n_numbers;
    fill_anew(how, most_records);
    const bool is_changed = change_some_record(by, in_view);
    begin_random_questions();
    const sight of_sound = look_at(&sound), of_filled = look_at(&filled);
    require_of(&of_sound, &of_filled, have_same_view(&of_sound, &of_filled), "a map filled anew has another view");
    met[FEWER] += filled.q < sound.q;
    met[MORE] += filled.q > sound.q;
    if (!is_changed)
        return;
    const sight of_changed = look_at(&changed);
    const bool same = have_same_view(&of_sound, &of_changed);
    require_of(&of_filled, &of_changed, have_same_view(&of_filled, &of_changed) == same,
               "of two maps with the same view one has that of a third, and the other has not");
    require_of(&of_sound, &of_changed, !(same && in_view), "a record of the view was changed, and the view was not");
    met_changes[by][same]++;
}

/* Of any m, with up to 1,024 records, or more where they are made for the window. */
static void random_views(void)
{
    const uint32_t m = (uint32_t)below(LUTNIORAD_MOST_M + 1);
    const size_t cuts = below((most_cuts(m < 5 ? m : 5) >> below(10)) + 1);
    make_map(&sound, m, (shape)below(SHAPES), cuts);
    for (size_t i = 0; i < WINDOWS_ON_MAPS; i++) {
        const window at = random_window_on(&sound, i, (size_t)1 << 12);
        try_views(at, (fill)below(FILLS), (size_t)1 << 10);
    }
}

/*
 * One of the longest maps, filled anew by few records or by any; or one of few records, filled anew as a longest one.
 * At m = 8 the window is all of the picture but a row or a column at some edges, at m = 12 the last row or pixel.
 */
static void large_views(uint32_t m, fill how)
{
    const window at = m == 8 ? wide_window(m, 1 + below(WIDE_WINDOWS - 1)) : thin_window(m, below(2) == 0 ? 1 : 6);
    if (how == FINE)
        make_map_around(&sound, m, at, 0);
    else
        make_map(&sound, m, RAGGED, most_cuts(8));
    try_views(at, how, MOST_RECORDS);
}

/* Where all cases were run, each change of a record was met with another view and with the same. */
void group_random_views(void)
{
    enum { CASES = 300, LARGE_CASES = 2 * FILLS };
    int run = 0;
    forget_met();
    memset(met_changes, 0, sizeof met_changes);
    for (int i = 0; i < CASES; i++)
        if (begin_case()) {
            random_views();
            run++;
        }
    for (int i = 0; i < LARGE_CASES; i++)
        if (begin_case()) {
            large_views(i % 2 == 0 ? 8 : 12, (fill)(i / 2));
            run++;
        }
    const bool all = run == CASES + LARGE_CASES;
    require_met(all ? OF_MAPS : 0);
    for (size_t i = 0; all && i < 2 * CHANGES; i++)
        require(met_changes[i / 2][i % 2] > 0, "some change of a record was not met with another view and the same");
}
