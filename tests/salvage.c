#include "salvage.h"

#include "gaps.h"
#include "harness.h"
#include "keys.h"

#include <stdlib.h>
#include <string.h>

/* The case at hand: a sound map, what became of it, and that mended. */
static map sound, broken, mended;

/* How long the slices are that are written. */
typedef struct {
    size_t keys, classes, log;
} room;

static lutniorad_answer salvage_slices(const map *a, size_t n_keys, size_t n_classes, room r)
{
    given keys = {a->keys, n_keys}, classes = {a->classes, n_classes};
    call c = {&SALVAGE, a->m, NO_TILE, NO_WINDOW, NO_CLASS,
              {keys, classes, {NULL, r.keys}, {NULL, r.classes}, {NULL, r.log}}};
    return compare(c);
}

static lutniorad_answer salvage(const map *a, room r)
{
    return salvage_slices(a, a->q, a->q, r);
}

/* ---- What is promised ---- */

/* The log of the map mended, and which of its records are blocks that were filled in. */
enum { MOST_CELLS = LUTNIORAD_SALVAGE_LOG_CELLS(MOST_RECORDS), CELLS_OF_ENTRY = 2 };
static uint32_t entries[MOST_CELLS];
static bool is_filled[MOST_RECORDS];

/* The records that were kept. */
static map kept;

/* How far a broken map and the same mended have been gone through. */
typedef struct {
    const map *from;
    size_t next, made;
} progress;

/* The next record was kept, and is the next one of the map mended. */
static void take_kept(progress *p)
{
    require(p->next < p->from->q && p->made < mended.q, "a record is neither kept nor dropped, or none was there");
    const uint32_t key = p->from->keys[p->next];
    const uint8_t of_class = p->from->classes[p->next++];
    require(mended.keys[p->made] == key && mended.classes[p->made] == of_class, "a record kept is not as it was");
    is_filled[p->made++] = false;
    kept.keys[kept.q] = key;
    kept.classes[kept.q++] = of_class;
}

/* All up to this record were kept, and it was dropped. Where a block was filled, a record behind it was kept first. */
static void take_dropped(progress *p, const uint32_t *entry, bool behind_filled)
{
    require(entry[0] >= p->next + behind_filled && entry[0] < p->from->q, "the indices in the log do not rise");
    while (p->next < entry[0])
        take_kept(p);
    const bool names_block = reference_lies_in(p->from->m, p->from->keys[p->next], whole_picture(p->from->m));
    const uint32_t number = names_block ? LUTNIORAD_OVERLAP : LUTNIORAD_BAD_KEY;
    require(entry[1] == number, "a record is dropped for another reason");
    p->next++;
}

/* All up to this block were kept, and it was filled in. */
static void take_filled(progress *p, const uint32_t *entry)
{
    while (p->made < mended.q && mended.keys[p->made] != entry[0])
        take_kept(p);
    require(p->made < mended.q && mended.classes[p->made] == NOT_SEEN, "a block filled in is not there");
    is_filled[p->made++] = true;
}

/* What the log says happened makes just this of the broken map. */
static void require_logged(const map *a, size_t n)
{
    progress p = {a, 0, 0};
    bool behind_filled = false;
    kept.q = 0;
    for (size_t i = 0; i < n; i++) {
        const uint32_t *entry = entries + CELLS_OF_ENTRY * i;
        const bool fills = entry[1] == LUTNIORAD_GAP;
        if (fills)
            take_filled(&p, entry);
        else
            take_dropped(&p, entry, behind_filled);
        behind_filled = fills;
    }
    while (p.next < a->q)
        take_kept(&p);
    require(p.made == mended.q, "the map mended has more than was kept and filled in");
}

/* No four blocks that were filled in could have been one. */
static void require_fewest(void)
{
    for (size_t i = 0; i + 4 <= mended.q; i++)
        require(!(is_filled[i] && is_filled[i + 1] && is_filled[i + 2] && is_filled[i + 3]
                  && are_quadrants(mended.m, mended.keys + i)),
                "a gap is not filled with the fewest blocks");
}

/* Pixel by pixel: one in a record that was kept has its class, and any other 255. */
static void require_pixels(void)
{
    enum { MOST_PAINTED = 5 };
    static uint32_t before[1 << 2 * MOST_PAINTED], after[1 << 2 * MOST_PAINTED];
    const window all = whole_picture(mended.m);
    if (mended.m > MOST_PAINTED)
        return;
    require(reference_sparse_raster(mended.m, kept.keys, kept.q, all, before), "records that were kept overlap");
    require(reference_raster(mended.m, mended.keys, mended.q, all, after), "the map mended does not paint every pixel");
    for (size_t i = 0; i < (size_t)all.h * all.w; i++)
        require(mended.classes[after[i]] == (before[i] == NO_RECORD ? NOT_SEEN : kept.classes[before[i]]),
                "a pixel of the map mended has another class");
}

/* The map mended is sound. Mended itself, it is the same, with an empty log. */
static void require_mended(void)
{
    static map again;
    static uint32_t none[1];
    const size_t q = mended.q;
    require_numbers(lutniorad_check(mended.m, mended.keys, q, mended.classes, q), 0, 0, (uint32_t)q, 0);
    require_numbers(lutniorad_salvage(mended.m, mended.keys, q, mended.classes, q, again.keys, q, again.classes, q,
                                      none, 0),
                    0, 0, (uint32_t)q, 0);
    require(memcmp(again.keys, mended.keys, q * sizeof *again.keys) == 0
                && memcmp(again.classes, mended.classes, q) == 0,
            "a map mended is mended once more");
}

/* After an answer. The log is empty exactly where the map was sound. */
static void require_promises(const map *a, lutniorad_answer answer)
{
    const bool was_sound = lutniorad_check(a->m, a->keys, a->q, a->classes, a->q).refusal == LUTNIORAD_ANSWERED;
    copy_records(&mended, a->m, answer.first, left(2), left(3));
    memcpy(entries, left(4), CELLS_OF_ENTRY * answer.second * sizeof *entries);
    require(was_sound == (answer.second == 0), "the log is not empty just where the map was sound");
    require_logged(a, answer.second);
    require_fewest();
    require_pixels();
    require_mended();
}

/* ---- One broken map ---- */

/*
 * Mends on empty slices, on a map just long enough, and on a log just long enough. Returns what is needed: of a map
 * that is refused, nothing. What was made stands in `mended` and in the log.
 */
static room try_salvage(const map *a)
{
    room need = {0, 0, 0};
    lutniorad_answer answer = salvage(a, need);
    if (answer.refusal != LUTNIORAD_SHORT_ROOM)
        return need;
    need.keys = need.classes = answer.place;
    answer = salvage(a, need);
    if (answer.refusal == LUTNIORAD_SHORT_ROOM) {
        need.log = answer.place;
        answer = salvage(a, need);
    }
    require(answer.refusal == LUTNIORAD_ANSWERED && answer.first == need.keys
                && CELLS_OF_ENTRY * (size_t)answer.second == need.log,
            "a refusal by 8 says another number of cells than are needed");
    require_promises(a, answer);
    return need;
}

/* The same, and then on slices too short by one, each alone and with others, and on longer ones. */
static void try_every_room(const map *a)
{
    const room need = try_salvage(a);
    if (need.keys == 0)
        return;
    const size_t less_log = need.log > 0 ? need.log - 1 : 0;
    const room others[] = {
        {need.keys - 1, need.classes, need.log},     {need.keys, need.classes - 1, need.log},
        {need.keys - 1, need.classes, less_log},     {need.keys, need.classes - 1, less_log},
        {need.keys, need.classes, less_log},         {need.keys + 3, need.classes, need.log},
        {need.keys, need.classes + 1, need.log + 1}, {need.keys + 1, need.classes + 4, less_log},
        {need.keys + 1, need.classes - 1, need.log}, {need.keys - 1, need.classes + 1, need.log + 2},
    };
    for (size_t i = 0; i < COUNT(others); i++)
        salvage(a, others[i]);
}

static void try_broken(void)
{
    try_every_room(&broken);
}

void try_salvage_of(const map *a)
{
    try_salvage(a);
    copy_map(&broken, a);
    thin_out(&broken, 1, 2);
    try_salvage(&broken);
    if (broken.q > 2) { /* and records are dropped, by 3 and by 4 */
        broken.keys[broken.q / 2] = UINT32_MAX;
        broken.keys[broken.q - 1] = broken.keys[0];
        try_salvage(&broken);
    }
}

/* ---- Group: salvage written out ---- */

static const struct {
    uint32_t m;
    size_t q;
    uint32_t keys[7];
    uint8_t classes[7];
    size_t made, n_entries;
    uint32_t made_keys[8];
    uint8_t made_classes[8];
    uint32_t entries[2 * 8];
} stated[] = {
    {2, 6, {5, 11, 26, 11, 14, 20}, {1, 2, 2, 3, 1, 2},
     7, 5, {5, 11, 12, 13, 14, 15, 20}, {1, 2, 255, 255, 1, 255, 2}, {2, 3, 3, 4, 12, 5, 13, 5, 15, 5}},
    {2, 7, {5, 11, 12, 13, 14, 15, 20}, {1, 2, 2, 3, 1, 1, 2}, /* sound */
     7, 0, {5, 11, 12, 13, 14, 15, 20}, {1, 2, 2, 3, 1, 1, 2}, {0}},
    {2, 1, {0}, {7}, 1, 0, {0}, {7}, {0}},
    {0, 1, {0}, {7}, 1, 0, {0}, {7}, {0}},
    {12, 1, {0}, {7}, 1, 0, {0}, {7}, {0}},
    {0, 0, {0}, {0}, 1, 1, {0}, {255}, {0, 5}}, /* no record */
    {2, 0, {0}, {0}, 1, 1, {0}, {255}, {0, 5}},
    {12, 0, {0}, {0}, 1, 1, {0}, {255}, {0, 5}},
    {0, 1, {1}, {7}, 1, 2, {0}, {255}, {0, 3, 0, 5}},
    {0, 2, {0, 0}, {7, 8}, 1, 1, {0}, {7}, {1, 4}},
    {0, 2, {UINT32_MAX, 0}, {7, 8}, 1, 1, {0}, {8}, {0, 3}},
    {2, 3, {1, 25, UINT32_MAX}, {7, 8, 9}, 1, 4, {0}, {255}, {0, 3, 1, 3, 2, 3, 0, 5}},
    {2, 1, {24}, {7}, 7, 6, {5, 10, 15, 21, 22, 23, 24}, {255, 255, 255, 255, 255, 255, 7}, /* the last pixel */
     {5, 5, 10, 5, 15, 5, 21, 5, 22, 5, 23, 5}},
    {2, 1, {6}, {7}, 7, 6, {6, 7, 8, 9, 10, 15, 20}, {7, 255, 255, 255, 255, 255, 255}, /* the first */
     {7, 5, 8, 5, 9, 5, 10, 5, 15, 5, 20, 5}},
    {2, 1, {6}, {255}, 7, 6, {6, 7, 8, 9, 10, 15, 20}, {255, 255, 255, 255, 255, 255, 255}, /* not joined */
     {7, 5, 8, 5, 9, 5, 10, 5, 15, 5, 20, 5}},
    {2, 2, {0, 5}, {7, 8}, 1, 1, {0}, {7}, {1, 4}}, /* inside the one before */
    {2, 2, {5, 0}, {7, 8}, 4, 4, {5, 10, 15, 20}, {7, 255, 255, 255}, {1, 4, 10, 5, 15, 5, 20, 5}}, /* around it */
    {2, 2, {5, 5}, {7, 8}, 4, 4, {5, 10, 15, 20}, {7, 255, 255, 255}, {1, 4, 10, 5, 15, 5, 20, 5}}, /* twice */
    {2, 2, {5, 10}, {7, 8}, 4, 2, {5, 10, 15, 20}, {7, 8, 255, 255}, {15, 5, 20, 5}}, /* just where it ended */
    {2, 2, {7, 5}, {7, 8}, 7, 7, {6, 7, 8, 9, 10, 15, 20}, {255, 7, 255, 255, 255, 255, 255},
     {6, 5, 1, 4, 8, 5, 9, 5, 10, 5, 15, 5, 20, 5}},
    {2, 4, {20, 5, 10, 15}, {1, 2, 3, 4}, 4, 6, {5, 10, 15, 20}, {255, 255, 255, 1}, /* not in their order */
     {5, 5, 10, 5, 15, 5, 1, 4, 2, 4, 3, 4}},
    {2, 3, {1, 25, 5}, {1, 2, 3}, 4, 5, {5, 10, 15, 20}, {3, 255, 255, 255}, {0, 3, 1, 3, 10, 5, 15, 5, 20, 5}},
    {2, 2, {10, 20}, {1, 0}, 4, 2, {5, 10, 15, 20}, {255, 1, 255, 0}, {5, 5, 15, 5}},
    {1, 2, {2, 4}, {0, 255}, 4, 2, {1, 2, 3, 4}, {255, 0, 255, 255}, {1, 5, 3, 5}},
    {1, 3, {2, 5, 1}, {0, 1, 2}, 4, 5, {1, 2, 3, 4}, {255, 0, 255, 255}, {1, 5, 1, 3, 2, 4, 3, 5, 4, 5}},
};

/* Zeros stand behind its records. */
static void make_stated(size_t i)
{
    copy_records(&broken, stated[i].m, COUNT(stated[i].keys), stated[i].keys, stated[i].classes);
    broken.q = stated[i].q;
}

static void stated_salvage(size_t i)
{
    const size_t q = stated[i].made, n = stated[i].n_entries;
    const room need = {q, q, CELLS_OF_ENTRY * n};
    make_stated(i);
    require_numbers(salvage(&broken, need), 0, 0, (uint32_t)q, (uint32_t)n);
    require(memcmp(left(2), stated[i].made_keys, q * sizeof *stated->made_keys) == 0
                && memcmp(left(3), stated[i].made_classes, q) == 0,
            "another map than the one written out");
    require(memcmp(left(4), stated[i].entries, need.log * sizeof *stated->entries) == 0,
            "another log than the one written out");
    try_broken();
}

/* Refused in their order, or not, of the first map above: it needs 7 records and 10 cells. */
static const struct {
    uint32_t m;
    size_t n_keys, n_classes;
    room given;
    lutniorad_answer answer;
} stated_orders[] = {
    {13, 6, 5, {0, 0, 0}, {1, 0, 0, 0}},
    {13, 0, 0, {0, 0, 0}, {1, 0, 0, 0}},
    {13, 6, 6, {9, 9, 19}, {1, 0, 0, 0}},
    {UINT32_MAX, 6, 6, {9, 9, 19}, {1, 0, 0, 0}},
    {2, 6, 5, {0, 0, 0}, {2, 0, 0, 0}},
    {2, 5, 6, {0, 0, 0}, {2, 0, 0, 0}},
    {2, 0, 1, {9, 9, 19}, {2, 0, 0, 0}},
    {2, 1, 0, {9, 9, 19}, {2, 0, 0, 0}},
    {2, 6, 6, {0, 0, 0}, {8, 7, 0, 0}},
    {2, 6, 6, {6, 7, 9}, {8, 7, 0, 0}},
    {2, 6, 6, {7, 6, 9}, {8, 7, 0, 0}},
    {2, 6, 6, {6, 7, 10}, {8, 7, 0, 0}},
    {2, 6, 6, {7, 6, 10}, {8, 7, 0, 0}},
    {2, 6, 6, {7, 7, 9}, {8, 10, 0, 0}},
    {2, 6, 6, {7, 7, 5}, {8, 10, 0, 0}},
    {2, 6, 6, {7, 7, 0}, {8, 10, 0, 0}},
    {2, 6, 6, {7, 7, 10}, {0, 0, 7, 5}},
    {2, 6, 6, {9, 8, 11}, {0, 0, 7, 5}},
    {2, 0, 0, {0, 1, 1}, {8, 1, 0, 0}},
    {2, 0, 0, {1, 1, 1}, {8, 2, 0, 0}},
    {2, 0, 0, {1, 1, 2}, {0, 0, 1, 1}},
};

void group_salvage_written_out(void)
{
    for (size_t i = 0; i < COUNT(stated); i++)
        if (begin_case())
            stated_salvage(i);
    for (size_t i = 0; i < COUNT(stated_orders); i++)
        if (begin_case()) {
            make_stated(0);
            broken.m = stated_orders[i].m;
            require_stated(salvage_slices(&broken, stated_orders[i].n_keys, stated_orders[i].n_classes,
                                          stated_orders[i].given),
                           stated_orders[i].answer);
        }
}

/* ---- Group: salvage of key lists ---- */

void group_salvage_of_key_lists(void)
{
    for_key_lists(&broken, 0, 4, 4, try_broken);
    for_key_lists(&broken, 1, 8, 5, try_broken);
    for_key_lists(&broken, 2, 28, 3, try_broken);
}

/* ---- Group: lengths of salvage ---- */

/* On slices of each length up to a little more than is needed. */
static void every_room(void)
{
    const room need = try_salvage(&broken);
    for (size_t n_keys = 0; n_keys <= need.keys + 2; n_keys++)
        for (size_t n_classes = 0; n_classes <= need.classes + 2; n_classes++)
            for (size_t n_log = 0; n_log <= need.log + 3; n_log++) {
                const room r = {n_keys, n_classes, n_log};
                salvage(&broken, r);
            }
}

/* Keys and classes that are each of any length up to one record more than the map has. */
static void every_length_of_map(void)
{
    static const room rooms[] = {{0, 0, 0}, {1, 1, 2}, {7, 7, 9}, {7, 7, 10}, {16, 16, 64}};
    append(&broken, 0);
    for (size_t n_keys = 0; n_keys <= broken.q; n_keys++)
        for (size_t n_classes = 0; n_classes <= broken.q; n_classes++)
            for (size_t i = 0; i < COUNT(rooms); i++)
                salvage_slices(&broken, n_keys, n_classes, rooms[i]);
}

void group_salvage_lengths(void)
{
    for (size_t i = 0; i < COUNT(stated); i++)
        if (begin_case()) {
            make_stated(i);
            every_room();
            every_length_of_map();
        }
}

/* ---- Group: refusals of salvage ---- */

/* Each reason with each other: m, the lengths of the map, of that mended, and of the log. */
static void reasons_together(uint32_t m)
{
    static const size_t records[] = {0, 1, 5, 6, 7}, cells[] = {0, 1, 2, 5, 9, 10, 11, 20, 100};
    make_stated(0);
    append(&broken, 0);
    broken.m = m;
    for (size_t i = 0; i < COUNT(records) * COUNT(records); i++)
        for (size_t k = 0; k < COUNT(cells) * COUNT(cells) * COUNT(cells); k++) {
            const room r = {cells[k % COUNT(cells)], cells[k / COUNT(cells) % COUNT(cells)],
                            cells[k / COUNT(cells) / COUNT(cells)]};
            salvage_slices(&broken, records[i % COUNT(records)], records[i / COUNT(records)], r);
        }
}

void group_salvage_refusals(void)
{
    static const uint32_t ms[] = {0, 1, 2, 3, 12, 13, 14, 18, 255, 258, 65538, 1u << 31, (1u << 31) + 2, UINT32_MAX};
    for (size_t i = 0; i < COUNT(ms); i++)
        if (begin_case())
            reasons_together(ms[i]);
}

/* ---- Group: salvage of small maps ---- */

static void every_damage(void)
{
    try_every_room(&sound);
    for_every_damage(&sound, &broken, try_broken);
}

static void every_key(void)
{
    for_every_key(&sound, &broken, try_broken);
}

void group_salvage_of_small_maps(void)
{
    for_small_maps(&sound, every_damage, PAINTS);
    for_small_maps(&sound, every_key, 1);
    for_small_sparse_maps(&broken, 2000, try_broken);
}

/* ---- Group: salvage of broken maps ---- */

static void swap_records(map *a, size_t i, size_t k)
{
    const uint32_t key = a->keys[i];
    const uint8_t of_class = a->classes[i];
    a->keys[i] = a->keys[k];
    a->classes[i] = a->classes[k];
    a->keys[k] = key;
    a->classes[k] = of_class;
}

static void leave(map *a)
{
    (void)a;
}

static void remove_all(map *a)
{
    a->q = 0;
}

static void remove_some(map *a)
{
    thin_out(a, 15, 16);
}

static void remove_many(map *a)
{
    thin_out(a, 1, 4);
}

/* Far apart. */
static void remove_nearly_all(map *a)
{
    thin_out(a, 3, a->q);
}

static void remove_first(map *a)
{
    drop(a, 0);
}

static void cut_short(map *a)
{
    a->q -= below(a->q) / 2 + 1;
}

static void reverse(map *a)
{
    for (size_t i = 0; i < a->q / 2; i++)
        swap_records(a, i, a->q - 1 - i);
}

static void shuffle(map *a)
{
    for (size_t i = 1; i < a->q; i++)
        swap_records(a, i, below(i + 1));
}

static void swap_some(map *a)
{
    for (size_t i = 0; i < a->q; i += 1 + below(16))
        swap_records(a, i, below(a->q));
}

/* The second half before the first. */
static void begin_in_the_middle(map *a)
{
    for (size_t i = 0; i < a->q / 2; i++)
        swap_records(a, i, a->q / 2 + i);
}

/* Each record twice, as far as there is room. */
static void repeat_all(map *a)
{
    a->q = a->q < MOST_RECORDS / 2 ? 2 * a->q : MOST_RECORDS;
    for (size_t i = a->q; i-- > 0;) {
        a->keys[i] = a->keys[i / 2];
        a->classes[i] = a->classes[i / 2];
    }
}

/* As a radio does it: some bits of some keys are turned round. */
static void turn_bits(map *a)
{
    for (size_t i = below(8); i < a->q; i += 1 + below(32))
        a->keys[i] ^= 1u << below(32);
}

static void make_numbers_of_all(map *a)
{
    for (size_t i = 0; i < a->q; i++)
        a->keys[i] = (uint32_t)random_number();
}

/* Most have a digit 0 before others. */
static void make_keys_of_all(map *a)
{
    for (size_t i = 0; i < a->q; i++)
        a->keys[i] = (uint32_t)below(power_of_5(a->m));
}

/* No key is of a block. */
static void spoil_all(map *a)
{
    for (size_t i = 0; i < a->q; i++)
        a->keys[i] += power_of_5(a->m);
}

static void make_all_greatest(map *a)
{
    for (size_t i = 0; i < a->q; i++)
        a->keys[i] = UINT32_MAX;
}

/* Each record is the quadrant of its block in the corner, so that gaps are behind all; or the other way round. */
static void shrink_some(map *a)
{
    for (size_t i = 0; i < a->q; i += 1 + below(64))
        take_first_child(a, i);
}

static void grow_some(map *a)
{
    for (size_t i = 0; i < a->q; i += 1 + below(64))
        a->keys[i] = parent_of(a->m, a->keys[i]);
}

/* The whole picture stands before, behind or in the middle of its records. */
static void take_all_for_one(map *a)
{
    a->keys[below(2) == 0 ? 0 : below(a->q)] = 0;
}

static void keep_last_alone(map *a)
{
    swap_records(a, 0, a->q - 1);
    a->q = 1;
}

/* What becomes of a map that has records. */
static void (*const breakages[])(map *) = {
    leave,
    remove_all,
    remove_some,
    remove_many,
    remove_nearly_all,
    remove_first,
    cut_short,
    reverse,
    shuffle,
    swap_some,
    begin_in_the_middle,
    repeat_all,
    turn_bits,
    make_numbers_of_all,
    make_keys_of_all,
    spoil_all,
    make_all_greatest,
    shrink_some,
    grow_some,
    take_all_for_one,
    keep_last_alone,
    damage_at_random,
};

static void break_map(uint32_t m, shape how, size_t cuts, size_t with)
{
    make_map(&sound, m, how, cuts);
    copy_map(&broken, &sound);
    breakages[with](&broken);
    try_every_room(&broken);
}

/* Some few records of many, far apart, or none. */
static void few_records(uint32_t m)
{
    make_map(&sound, m, RAGGED, most_cuts(m < 8 ? m : 8));
    for (int i = 0; i < 10; i++) {
        copy_map(&broken, &sound);
        thin_out(&broken, 1 + below(5), sound.q);
        try_salvage(&broken);
    }
}

/* As often few records as many. */
void group_salvage_of_broken_maps(void)
{
    for (uint32_t m = 0; m <= 12; m++) {
        const size_t most = most_cuts(m < 8 ? m : 8);
        for (size_t with = 0; with < COUNT(breakages); with++)
            for (shape how = DEEP; how < SHAPES; how++)
                if (begin_case())
                    break_map(m, how, below((most >> below(2 * m + 1)) + 1), with);
        if (begin_case())
            few_records(m);
    }
}

/* ---- Group: salvage of blocks and pixels ---- */

static int by_value(const void *a, const void *b)
{
    const uint32_t one = *(const uint32_t *)a, other = *(const uint32_t *)b;
    return (one > other) - (one < other);
}

/* Keys whose digits are 0 in all ways, as they come and then rising: so some are dropped for their form, some kept. */
static void every_pattern(uint32_t m)
{
    broken.m = m;
    broken.q = (size_t)1 << m;
    for (size_t i = 0; i < broken.q; i++)
        broken.keys[i] = number_without(m, (uint32_t)i);
    paint(&broken, FEW);
    try_salvage(&broken);
    qsort(broken.keys, broken.q, sizeof *broken.keys, by_value);
    try_salvage(&broken);
}

static void begin_blocks(uint32_t m)
{
    broken.m = m;
    broken.q = 0;
}

static void append_block(uint32_t exponent, uint32_t place)
{
    broken.keys[broken.q++] = key_at(broken.m, exponent, place);
}

static void try_blocks(void)
{
    paint(&broken, RANDOM);
    try_salvage(&broken);
}

/*
 * A block behind a pixel: its own first or last one, so that the block is dropped; the one before it, so that it fits;
 * or one earlier, so that a pixel between is filled in.
 */
enum { PIXELS_BEFORE = 4 };

static void append_behind_pixel(uint32_t exponent, uint32_t place, size_t which)
{
    const uint32_t last = place + ((uint32_t)1 << 2 * exponent) - 1;
    const uint32_t pixels[PIXELS_BEFORE] = {place, last, place > 0 ? place - 1 : place, place > 1 ? place - 2 : place};
    append_block(0, pixels[which]);
    append_block(exponent, place);
}

/* In each of 64 parts of the picture some block, each time of another size. */
static void blocks_behind_pixels(uint32_t m)
{
    const uint32_t of_part = m - 3;
    begin_blocks(m);
    for (uint32_t part = 0; part < 64; part++) {
        const uint32_t exponent = part % (of_part + 1);
        const uint32_t number = (uint32_t)below((size_t)1 << 2 * (of_part - exponent));
        append_behind_pixel(exponent, (part << 2 * of_part) + (number << 2 * exponent), below(PIXELS_BEFORE));
    }
    try_blocks();
}

/* The last block of a larger size, alone. */
static void large_block_behind_pixels(uint32_t m, uint32_t exponent)
{
    const uint32_t place = ((uint32_t)1 << 2 * m) - ((uint32_t)1 << 2 * exponent);
    for (size_t which = 0; which < PIXELS_BEFORE; which++) {
        begin_blocks(m);
        append_behind_pixel(exponent, place, which);
        try_blocks();
    }
}

/* Some pixel in one quarter of the picture, and some in a later one. */
static void pixels_far_apart(uint32_t m)
{
    const uint32_t of_quarter = (uint32_t)1 << 2 * (m - 1);
    for (uint32_t first = 0; first < 3; first++)
        for (uint32_t second = first + 1; second < 4; second++) {
            begin_blocks(m);
            append_block(0, first * of_quarter + (uint32_t)below(of_quarter));
            append_block(0, second * of_quarter + (uint32_t)below(of_quarter));
            try_blocks();
        }
}

/* All that is missing is a pixel; and a pixel is all that came. */
static void single_pixel(uint32_t m, window pixel)
{
    size_t i = 0;
    make_map_around(&sound, m, pixel, 0);
    while (!reference_lies_in(m, sound.keys[i], pixel))
        i++;
    copy_map(&broken, &sound);
    drop(&broken, i);
    try_salvage(&broken);
    require(mended.q == sound.q && is_filled[i], "a map without a pixel is not mended by that");
    copy_map(&broken, &sound);
    keep_inside(&broken, pixel);
    try_salvage(&broken);
    require(mended.q == sound.q && mended.keys[i] == sound.keys[i], "a pixel is not kept where it was");
}

void group_salvage_of_blocks(void)
{
    for (uint32_t m = 1; m <= 12; m++)
        for (int i = 0; i < 3; i++)
            if (begin_case())
                every_pattern(m);
    for (uint32_t m = 3; m <= 12; m++)
        for (int i = 0; i < 12; i++)
            if (begin_case())
                blocks_behind_pixels(m);
    for (uint32_t m = 3; m <= 12; m++)
        for (uint32_t exponent = m - 2; exponent <= m; exponent++)
            if (begin_case())
                large_block_behind_pixels(m, exponent);
    for (uint32_t m = 1; m <= 12; m++) {
        if (begin_case())
            pixels_far_apart(m);
        for (size_t number = 0; number <= CHOSEN_PIXELS; number++)
            if (begin_case())
                single_pixel(m, nth_pixel(m, number));
    }
}

/* ---- Group: most records of salvage ---- */

/* As many records as a map may have. One more, handed in, is too many, and so are slices that differ. */
static void most_handed_in(uint32_t m, shape how)
{
    const room none = {0, 0, 0}, enough = {MOST_RECORDS, MOST_RECORDS, 0};
    make_map(&sound, m, how, most_cuts(8));
    append(&sound, 0);
    require_numbers(salvage_slices(&sound, 65537, 65537, none), 2, 0, 0, 0);
    require_numbers(salvage_slices(&sound, 65537, 65536, none), 2, 0, 0, 0);
    require_numbers(salvage_slices(&sound, 65536, 65537, none), 2, 0, 0, 0);
    require_numbers(salvage_slices(&sound, 65536, 65536, none), 8, 65536, 0, 0);
    require_numbers(salvage_slices(&sound, 65536, 65536, enough), 0, 0, 65536, 0);
    sound.q = MOST_RECORDS;
    try_every_room(&sound);
}

/* As many that have one key: where that is the picture's the first is kept, and where it names no block none is. */
static void most_dropped(uint32_t m, uint32_t key)
{
    const size_t n_entries = key == 0 ? MOST_RECORDS - 1 : MOST_RECORDS + 1;
    broken.m = m;
    broken.q = MOST_RECORDS;
    for (size_t i = 0; i < broken.q; i++)
        broken.keys[i] = key;
    paint(&broken, RANDOM);
    const room need = try_salvage(&broken);
    require(need.keys == 1 && need.log == CELLS_OF_ENTRY * n_entries, "not one block, or not each record in the log");
}

/*
 * So many records, and every second of them missing: what is filled in has the same number. With a record that is only
 * a quadrant of its block there are three more. There is no map of a number between: each cut in four makes three more.
 */
static void most_made(uint32_t m, shape how)
{
    make_map(&sound, m, how, most_cuts(8));
    copy_map(&broken, &sound);
    for (size_t i = 0; i < broken.q / 2; i++)
        swap_records(&broken, i, 2 * i + below(2));
    broken.q /= 2;
    require(try_salvage(&broken).keys == MOST_RECORDS, "the longest map is not mended to the same number of records");
}

static void too_many_made(size_t at)
{
    const room enough = {MOST_RECORDS + 3, MOST_RECORDS + 3, MOST_CELLS};
    make_map(&broken, 12, EVEN, most_cuts(8));
    take_first_child(&broken, at);
    require_numbers(salvage(&broken, enough), 2, 0, 0, 0);
    drop(&broken, at == 0 ? 1 : at - 1); /* and that is filled in */
    require_numbers(salvage(&broken, enough), 2, 0, 0, 0);
}

/*
 * As many entries as can nearly be. Of 4,096 blocks of side 64 five in six have a record in their corner, all pixels
 * but one, whose side is 16: so six cuts in each of these blocks and two in that make 65,536 records. As many are
 * handed in, the others all malformed, before and behind those that are kept.
 */
static void longest_log(void)
{
    enum { IN_64 = 15625, TO_PIXEL = (IN_64 - 1) / 4, TO_16 = IN_64 / 5 + IN_64 / 25, KEPT = 3414 };
    const room enough = {MOST_RECORDS + 12, MOST_RECORDS + 12, MOST_CELLS};
    make_map(&sound, 12, EVEN, most_cuts(6));
    broken.m = 12;
    broken.q = MOST_RECORDS;
    for (size_t i = 0; i < broken.q; i++)
        broken.keys[i] = UINT32_MAX - (uint32_t)i;
    for (size_t i = 0, next = 9; i < sound.q; i++)
        if (i % 6 != 5) {
            broken.keys[next] = sound.keys[i] + (next == 9 ? TO_16 : TO_PIXEL);
            next += 19;
        }
    paint(&broken, RANDOM);
    const room need = try_salvage(&broken);
    require(need.keys == MOST_RECORDS && need.log == MOST_CELLS - 4 * KEPT, "another log than the one that was made");
    broken.keys[9] = sound.keys[0] + TO_PIXEL;
    require_numbers(salvage(&broken, enough), 2, 0, 0, 0);
}

/* Single pixels all over the picture: many times as many as a map may have. */
static void far_too_many_made(void)
{
    const room enough = {MOST_RECORDS, MOST_RECORDS, MOST_CELLS};
    make_map(&broken, 12, EVEN, most_cuts(8));
    for (size_t i = 0; i < broken.q; i++)
        broken.keys[i] += (power_of_5(4) - 1) / 4;
    for (; broken.q > MOST_RECORDS / 16; broken.q /= 2)
        require_numbers(salvage(&broken, enough), 2, 0, 0, 0);
}

void group_most_salvaged(void)
{
    static const uint32_t keys[] = {0, 1, UINT32_MAX};
    for (uint32_t m = 8; m <= 12; m += 4)
        for (shape how = DEEP; how < SHAPES; how++)
            if (begin_case()) {
                most_handed_in(m, how);
                most_made(m, how);
            }
    for (uint32_t m = 0; m <= 12; m += 3)
        for (size_t i = 0; i < COUNT(keys); i++)
            if (begin_case())
                most_dropped(m, keys[i]);
    for (size_t at = 0; at < MOST_RECORDS; at += (MOST_RECORDS - 1) / 3)
        if (begin_case())
            too_many_made(at);
    if (begin_case())
        longest_log();
    if (begin_case())
        far_too_many_made();
}

/* ---- Group: vast slices of salvage ---- */

/* Of the first map written out, which needs 7 records and 10 cells. */
static const struct {
    size_t n_keys, n_classes;
    room given;
    lutniorad_answer answer;
} vast_calls[] = {
    {6, 6, {VAST, 7, 10}, {0, 0, 7, 5}},
    {6, 6, {VAST + 6, 7, 10}, {0, 0, 7, 5}},
    {6, 6, {7, VAST, 10}, {0, 0, 7, 5}},
    {6, 6, {7, VAST + 6, 10}, {0, 0, 7, 5}},
    {6, 6, {7, 7, VAST}, {0, 0, 7, 5}},
    {6, 6, {7, 7, VAST + 9}, {0, 0, 7, 5}},
    {6, 6, {VAST + 6, VAST, VAST + 9}, {0, 0, 7, 5}},
    {6, 6, {65536 + 6, 65536, 65536 + 9}, {0, 0, 7, 5}},
    {6, 6, {VAST + 7, 6, 10}, {8, 7, 0, 0}},
    {6, 6, {6, VAST + 7, VAST}, {8, 7, 0, 0}},
    {6, 6, {VAST, VAST, 9}, {8, 10, 0, 0}},
    {VAST, VAST, {7, 7, 10}, {2, 0, 0, 0}},
    {VAST + 6, VAST + 6, {7, 7, 10}, {2, 0, 0, 0}},
    {VAST + 6, 6, {7, 7, 10}, {2, 0, 0, 0}},
    {6, VAST + 6, {7, 7, 10}, {2, 0, 0, 0}},
    {0, VAST, {7, 7, 10}, {2, 0, 0, 0}},
    {VAST, 0, {7, 7, 10}, {2, 0, 0, 0}},
};

void group_vast_salvage(void)
{
    for (size_t i = 0; i < COUNT(vast_calls); i++)
        if (begin_case()) {
            make_stated(0);
            require_stated(salvage_slices(&broken, vast_calls[i].n_keys, vast_calls[i].n_classes, vast_calls[i].given),
                           vast_calls[i].answer);
        }
}

/* ---- Group: random salvage ---- */

static void break_at_random(map *a)
{
    for (size_t times = 1 + below(3); times > 0 && a->q > 0; times--)
        breakages[below(COUNT(breakages))](a);
}

static void lengths_at_random(room need)
{
    const size_t n_keys = near_length(broken.q), n_classes = below(2) == 0 ? n_keys : near_length(broken.q);
    if (broken.q > MOST_RECORDS)
        return;
    need.keys = near_length(need.keys);
    need.classes = near_length(need.classes);
    need.log = near_length(need.log);
    for (int i = 0; i < NEAR; i++)
        append(&broken, 0);
    salvage_slices(&broken, n_keys, n_classes, need);
}

static void random_salvage(void)
{
    make_random_map(&sound);
    copy_map(&broken, &sound);
    break_at_random(&broken);
    lengths_at_random(try_salvage(&broken));
}

/* Pictures that are small enough for many of them. */
static void random_small_salvage(void)
{
    const uint32_t m = 2 + (uint32_t)below(5);
    make_map(&sound, m, (shape)below(SHAPES), below((most_cuts(m) >> below(10)) + 1));
    copy_map(&broken, &sound);
    break_at_random(&broken);
    try_every_room(&broken);
}

void group_random_salvage(void)
{
    for (int i = 0; i < 300; i++)
        if (begin_case())
            random_salvage();
    for (int i = 0; i < 3000; i++)
        if (begin_case())
            random_small_salvage();
}
