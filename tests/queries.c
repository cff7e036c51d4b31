#include "queries.h"

#include "questions.h"

#include <string.h>

/* A sound map. */
static map sound;

/* ---- Group: queries written out ---- */

/* On the reference map; at m = 0 on the map of one pixel of class 1. */
static const struct {
    const operation *operation;
    uint32_t m;
    window at;
    uint8_t of_class;
    size_t n_border, n_out;
    lutniorad_answer answer;
    uint32_t cells[6]; /* the keys; or the first totals, all others being 0 */
    uint16_t border;   /* every cell in the end, or 0 where it is not written */
} stated_queries[] = {
    {&SELECT, 2, {0, 1, 3, 3}, 1, 3, 4, {0, 0, 4, 0}, {7, 14, 9, 17}, 3},
    {&SELECT, 2, {0, 1, 3, 3}, 2, 3, 4, {0, 0, 4, 0}, {11, 12, 21, 22}, 3},
    {&SELECT, 2, {0, 1, 3, 3}, 3, 3, 1, {0, 0, 1, 0}, {13}, 3},
    {&SELECT, 2, {0, 1, 3, 3}, 0, 3, 0, {0, 0, 0, 0}, {0}, 3},
    {&SELECT, 2, {0, 1, 3, 3}, 255, 3, 0, {0, 0, 0, 0}, {0}, 3},
    {&SELECT, 2, {0, 1, 3, 3}, 1, 3, 3, {8, 4, 0, 0}, {0}, 3},
    {&SELECT, 2, {0, 1, 3, 3}, 3, 3, 0, {8, 1, 0, 0}, {0}, 3},
    {&SELECT, 2, {0, 1, 3, 3}, 1, 2, 4, {7, 3, 0, 0}, {0}, 0},
    {&SELECT, 2, {0, 1, 3, 3}, 1, 2, 3, {7, 3, 0, 0}, {0}, 0},
    {&SELECT, 2, {0, 0, 4, 4}, 1, 4, 3, {0, 0, 3, 0}, {5, 14, 15}, 4},
    {&SELECT, 2, {0, 0, 4, 4}, 2, 4, 3, {0, 0, 3, 0}, {11, 12, 20}, 4},
    {&SELECT, 2, {2, 0, 2, 1}, 1, 1, 2, {0, 0, 2, 0}, {16, 18}, 4},
    {&SELECT, 2, {2, 0, 2, 1}, 2, 1, 0, {0, 0, 0, 0}, {0}, 4},
    {&SELECT, 2, {2, 0, 3, 1}, 1, 1, 2, {6, 0, 0, 0}, {0}, 0},
    {&SELECT, 2, {0, 1, 3, 0}, 1, 0, 0, {6, 0, 0, 0}, {0}, 0},
    {&SELECT, 2, {65535, 0, 1, 1}, 1, 1, 1, {6, 0, 0, 0}, {0}, 0},
    {&SELECT, 13, {0, 1, 3, 3}, 1, 3, 4, {1, 0, 0, 0}, {0}, 0},
    {&SELECT, 0, {0, 0, 1, 1}, 1, 1, 1, {0, 0, 1, 0}, {0}, 1},
    {&SELECT, 0, {0, 0, 1, 1}, 1, 1, 0, {8, 1, 0, 0}, {0}, 1},
    {&REPORT, 2, {0, 1, 3, 3}, 0, 3, 256, {0, 0, 9, 0}, {0, 4, 4, 1}, 3},
    {&REPORT, 2, {0, 1, 3, 3}, 0, 3, 255, {8, 256, 0, 0}, {0}, 3},
    {&REPORT, 2, {0, 1, 3, 3}, 0, 2, 256, {7, 3, 0, 0}, {0}, 0},
    {&REPORT, 2, {0, 1, 3, 3}, 0, 2, 255, {7, 3, 0, 0}, {0}, 0},
    {&REPORT, 2, {0, 0, 4, 4}, 0, 4, 256, {0, 0, 16, 0}, {0, 9, 6, 1}, 4},
    {&REPORT, 2, {1, 1, 2, 2}, 0, 2, 256, {0, 0, 4, 0}, {0, 2, 1, 1}, 3},
    {&REPORT, 2, {2, 0, 2, 1}, 0, 1, 256, {0, 0, 2, 0}, {0, 2}, 4},
    {&REPORT, 2, {2, 0, 3, 1}, 0, 1, 256, {6, 0, 0, 0}, {0}, 0},
    {&REPORT, 2, {0, 1, 3, 0}, 0, 0, 0, {6, 0, 0, 0}, {0}, 0},
    {&REPORT, 2, {65535, 0, 1, 1}, 0, 1, 256, {6, 0, 0, 0}, {0}, 0},
    {&REPORT, 13, {0, 1, 3, 3}, 0, 3, 256, {1, 0, 0, 0}, {0}, 0},
    {&REPORT, 0, {0, 0, 1, 1}, 0, 1, 256, {0, 0, 1, 0}, {0, 1}, 1},
    {&EXIST, 2, {0, 1, 3, 3}, 1, 3, 0, {0, 0, 1, 0}, {0}, 3},
    {&EXIST, 2, {0, 1, 3, 3}, 3, 3, 0, {0, 0, 1, 0}, {0}, 3},
    {&EXIST, 2, {0, 1, 3, 3}, 0, 3, 0, {0, 0, 0, 0}, {0}, 3},
    {&EXIST, 2, {0, 1, 3, 3}, 255, 3, 0, {0, 0, 0, 0}, {0}, 3},
    {&EXIST, 2, {0, 1, 3, 3}, 1, 2, 0, {7, 3, 0, 0}, {0}, 0},
    {&EXIST, 2, {2, 0, 2, 1}, 1, 1, 0, {0, 0, 1, 0}, {0}, 4},
    {&EXIST, 2, {2, 0, 2, 1}, 2, 1, 0, {0, 0, 0, 0}, {0}, 4}, /* elsewhere in the picture */
    {&EXIST, 2, {2, 0, 3, 1}, 1, 1, 0, {6, 0, 0, 0}, {0}, 0},
    {&EXIST, 2, {0, 1, 3, 0}, 1, 0, 0, {6, 0, 0, 0}, {0}, 0},
    {&EXIST, 2, {65535, 0, 1, 1}, 1, 1, 0, {6, 0, 0, 0}, {0}, 0},
    {&EXIST, 13, {0, 1, 3, 3}, 1, 3, 0, {1, 0, 0, 0}, {0}, 0},
    {&EXIST, 0, {0, 0, 1, 1}, 1, 1, 0, {0, 0, 1, 0}, {0}, 1},
    {&EXIST, 0, {0, 0, 1, 1}, 0, 1, 0, {0, 0, 0, 0}, {0}, 1},
};

/* All cells of an answer as they are written out: the keys, or the 256 totals. */
static void require_stated_cells(size_t i)
{
    uint32_t cells[CLASSES] = {0};
    lutniorad_answer stated = stated_queries[i].answer;
    size_t n = stated_queries[i].operation == &SELECT ? stated.first : CLASSES;
    if (stated.refusal != 0 || stated_queries[i].operation == &EXIST)
        return;
    memcpy(cells, stated_queries[i].cells, sizeof stated_queries[i].cells);
    require(memcmp(left(3), cells, n * sizeof *cells) == 0, "other cells than those written out");
}

static void stated_query(size_t i)
{
    make_stated_map(&sound, stated_queries[i].m);
    question q = {stated_queries[i].operation, &sound, NO_TILE, stated_queries[i].at, stated_queries[i].of_class};
    require_stated(ask(q, stated_queries[i].n_border, stated_queries[i].n_out), stated_queries[i].answer);
    require_stated_cells(i);
    require_border(q.at, stated_queries[i].border);
}

/* What exist answers on the reference map with other classes. The comments say where those of 255 are. */
static const struct {
    uint8_t classes[REFERENCE_Q];
    window at;
    uint8_t of_class;
    uint32_t existence;
} stated_existence[] = {
    {{255, 2, 2, 3, 1, 1, 2}, {0, 1, 3, 3}, 0, LUTNIORAD_CANNOT_TELL}, /* in the first opening; block 9 is skipped */
    {{1, 2, 255, 3, 1, 1, 2}, {0, 1, 3, 3}, 0, LUTNIORAD_CANNOT_TELL}, /* among the records of an opening */
    {{1, 2, 2, 3, 1, 1, 255}, {0, 1, 3, 3}, 0, LUTNIORAD_CANNOT_TELL}, /* in the last opening; block 22 is skipped */
    {{1, 2, 2, 3, 1, 255, 2}, {0, 0, 3, 3}, 0, LUTNIORAD_CANNOT_TELL}, /* handed out at block 16; 17 is skipped */
    {{1, 2, 2, 3, 1, 255, 2}, {2, 0, 2, 1}, 2, LUTNIORAD_CANNOT_TELL}, /* in all the window; the class is outside */
    {{255, 255, 255, 255, 255, 255, 255}, {0, 1, 3, 3}, 0, LUTNIORAD_CANNOT_TELL}, /* everywhere */
    {{255, 255, 255, 255, 255, 255, 255}, {0, 0, 4, 4}, 254, LUTNIORAD_CANNOT_TELL},
    {{255, 255, 255, 255, 255, 1, 255}, {2, 0, 2, 1}, 2, LUTNIORAD_NO}, /* outside the window alone */
    {{1, 255, 255, 3, 255, 1, 2}, {1, 1, 2, 2}, 0, LUTNIORAD_NO}, /* outside, in a quadrant that the window cuts */
    {{1, 2, 2, 3, 1, 1, 2}, {0, 0, 4, 4}, 254, LUTNIORAD_NO},     /* nowhere */
    {{3, 2, 2, 2, 1, 1, 255}, {0, 1, 3, 3}, 3, LUTNIORAD_YES},    /* behind the class */
    {{255, 2, 2, 2, 1, 1, 3}, {0, 1, 3, 3}, 3, LUTNIORAD_YES},    /* before the class */
    {{1, 3, 2, 2, 255, 1, 2}, {0, 1, 3, 3}, 3, LUTNIORAD_YES},    /* in one opening, behind the class */
    {{1, 255, 2, 2, 3, 1, 2}, {0, 1, 3, 3}, 3, LUTNIORAD_YES},    /* and before it */
    {{255, 255, 255, 255, 255, 1, 255}, {2, 0, 2, 1}, 1, LUTNIORAD_YES},
    {{1, 2, 2, 3, 1, 1, 255}, {0, 1, 3, 3}, 255, LUTNIORAD_YES}, /* asked for itself */
    {{255, 255, 255, 255, 255, 255, 255}, {0, 1, 3, 3}, 255, LUTNIORAD_YES},
    {{255, 255, 255, 255, 255, 1, 255}, {2, 0, 2, 1}, 255, LUTNIORAD_NO},
    {{1, 255, 255, 3, 255, 1, 2}, {1, 1, 2, 2}, 255, LUTNIORAD_NO},
};

static void stated_exist(size_t i)
{
    window at = stated_existence[i].at;
    copy_records(&sound, 2, REFERENCE_Q, REFERENCE_KEYS, stated_existence[i].classes);
    question q = {&EXIST, &sound, NO_TILE, at, stated_existence[i].of_class};
    require_numbers(ask(q, at.w, 0), 0, 0, stated_existence[i].existence, 0);
    require_border(at, (uint16_t)(at.r0 + at.h));
}

void group_queries_written_out(void)
{
    for (size_t i = 0; i < COUNT(stated_queries); i++)
        if (begin_case())
            stated_query(i);
    for (size_t i = 0; i < COUNT(stated_existence); i++)
        if (begin_case())
            stated_exist(i);
}

/* ---- Group: small queries ---- */

/* Each class of the map, and some that it does not have. */
static size_t classes_to_ask(const map *a, uint8_t asked[CLASSES])
{
    bool is_asked[CLASSES] = {false};
    size_t n = 0;
    is_asked[0] = is_asked[1] = is_asked[100] = is_asked[254] = is_asked[255] = true;
    for (size_t i = 0; i < a->q; i++)
        is_asked[a->classes[i]] = true;
    for (size_t k = 0; k < CLASSES; k++)
        if (is_asked[k])
            asked[n++] = (uint8_t)k;
    return n;
}

/* On a small map: about each class on slices that are long enough, and about some class on slices of each length. */
static void query_every_window(int how)
{
    static const operation *const queries[] = {&EXIST, &REPORT, &SELECT};
    uint8_t asked[CLASSES];
    paint(&sound, how);
    size_t n = classes_to_ask(&sound, asked);
    for (size_t number = 0; number < n_small_windows(sound.m); number++) {
        window at = small_window(sound.m, number);
        try_queries(&sound, at, asked, n);
        for (size_t i = 0; i < COUNT(queries); i++) {
            question q = {queries[i], &sound, NO_TILE, at, some_class(&sound)};
            ask_with_every_length(q);
        }
    }
}

static void query_every_paint(void)
{
    static const int paints[] = {RISING, ALL_0, ALL_255, FEW};
    for (size_t i = 0; i < COUNT(paints); i++)
        query_every_window(paints[i]);
}

void group_small_queries(void)
{
    for_small_maps(&sound, query_every_paint, 1);
}

/* ---- Group: small mixtures ---- */

/* What maps are mixed of. */
enum { ASKED, OTHER = 254 };
static const uint8_t mixed[] = {ASKED, OTHER, NOT_SEEN};

static size_t n_mixtures(size_t q)
{
    size_t n = 1;
    for (size_t i = 0; i < q; i++)
        n *= COUNT(mixed);
    return n;
}

static void mix(map *a, size_t number)
{
    for (size_t i = 0; i < a->q; i++, number /= COUNT(mixed))
        a->classes[i] = mixed[number % COUNT(mixed)];
}

/* All of the other class, but for one that is asked for and one that was not seen. Place q, beyond the map, is none. */
static void mix_two(map *a, size_t asked, size_t not_seen)
{
    memset(a->classes, OTHER, a->q);
    a->classes[asked] = ASKED;
    a->classes[not_seen] = NOT_SEEN;
}

/* On the map at hand: every mixture where it has few records, and else two records in every two places. */
static void try_mixtures(window at)
{
    enum { FEW_RECORDS = 7 };
    const bool few = sound.q <= FEW_RECORDS;
    const size_t places = sound.q + 1;
    for (size_t number = 0; number < (few ? n_mixtures(sound.q) : places * places); number++) {
        if (few)
            mix(&sound, number);
        else
            mix_two(&sound, number % places, number / places);
        question asked = {&EXIST, &sound, NO_TILE, at, ASKED}, not_seen = {&EXIST, &sound, NO_TILE, at, NOT_SEEN};
        ask_in_full(asked);
        ask_in_full(not_seen);
    }
}

static void mix_in_every_window(void)
{
    for (size_t number = 0; number < n_small_windows(sound.m); number++) {
        question exist = {&EXIST, &sound, NO_TILE, small_window(sound.m, number), ASKED};
        if (ask(exist, exist.at.w, 0).refusal == 0)
            try_mixtures(exist.at);
    }
}

void group_small_mixtures(void)
{
    for_small_maps(&sound, mix_in_every_window, 1);
}

/* ---- Group: runs of records ---- */

/*
 * The records of an opening follow one another, and many of them may be looked at together. A window that is a block
 * has one opening, of 1 + 3 * cuts records. With so many cuts, and fewer, these numbers leave every rest by 32.
 */
enum { CUTS_OF_RUN = 33 };

/*
 * A window whose records are the n from `first` on. Just one of these was not seen, in every place, while all around
 * them have the class; or just one has the class, while all around were not seen. Then some record more is like those.
 */
static void try_every_place(window at, size_t first, size_t n)
{
    static const uint8_t asked[] = {ASKED, NOT_SEEN};
    for (size_t i = 0; i < 2 * n; i++) {
        uint8_t one = asked[i % 2], around = asked[1 - i % 2];
        memset(sound.classes, around, sound.q);
        memset(sound.classes + first, OTHER, n);
        sound.classes[first + i / 2] = one;
        try_exist(&sound, at, asked, COUNT(asked));
        sound.classes[first + below(n)] = around;
        try_exist(&sound, at, asked, COUNT(asked));
    }
}

static void run_of_picture(size_t cuts)
{
    make_map(&sound, 4, (shape)below(SHAPES), cuts);
    try_every_place(whole_picture(4), 0, sound.q);
}

/* All quadrants are cut alike: each has as many records. */
static void run_of_quadrant(size_t cuts, size_t quadrant)
{
    const uint16_t half = side_of(4);
    const window at = {(uint16_t)(quadrant / 2 * half), (uint16_t)(quadrant % 2 * half), half, half};
    make_map(&sound, 5, EVEN, 1 + 4 * cuts);
    try_every_place(at, quadrant * (sound.q / 4), sound.q / 4);
}

void group_runs(void)
{
    for (size_t cuts = 0; cuts <= CUTS_OF_RUN; cuts++) {
        if (begin_case())
            run_of_picture(cuts);
        for (size_t quadrant = 0; quadrant < 4; quadrant++)
            if (begin_case())
                run_of_quadrant(cuts, quadrant);
    }
}

/* ---- Group: random mixtures ---- */

/* One record in so many, or none for 0. */
static void sprinkle(map *a, uint8_t of_class, size_t one_in)
{
    for (size_t i = 0; one_in != 0 && i < a->q; i++)
        if (below(one_in) == 0)
            a->classes[i] = of_class;
}

/* What was not seen, and what is asked for, each nowhere, rare or frequent. */
static void mix_at_random(map *a)
{
    const size_t chances[] = {0, a->q, 64, 8, 2};
    memset(a->classes, OTHER, a->q);
    sprinkle(a, ASKED, chances[below(COUNT(chances))]);
    sprinkle(a, NOT_SEEN, chances[below(COUNT(chances))]);
}

static void random_mixtures(void)
{
    enum { NOWHERE = 127 };
    static const uint8_t asked[] = {ASKED, OTHER, NOT_SEEN, NOWHERE};
    make_random_map(&sound);
    for (size_t i = 0; i < WINDOWS_ON_MAPS; i++) {
        window at = random_window_on(&sound, i, (size_t)1 << 14);
        mix_at_random(&sound);
        try_exist(&sound, at, asked, COUNT(asked));
    }
}

void group_random_mixtures(void)
{
    for (int i = 0; i < 300; i++)
        if (begin_case())
            random_mixtures();
}
