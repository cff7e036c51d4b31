/* The library's algorithm in plain C: salvage of a broken map. A key that does not fit is read as by the check. */
#include "parts.h"
#include "programs.h"

/* What an entry of the log says: the number by which a check would refuse. */
enum { MALFORMED = 3, EARLY = 4, GAP = 5 };

enum { MOST_OF_RESULT = 65536 };

/* A broken map, and the slices of the result. The first of the two passes writes nothing. */
typedef struct {
    uint32_t m;
    const uint32_t *keys;
    const uint8_t *classes;
    size_t q;
    bool writes;
    uint32_t *out_keys;
    uint8_t *out_classes;
    uint32_t *log;
} task;

/* How far a pass has come: along the map, and how many records and entries the result has. */
typedef struct {
    gone to;
    size_t records, entries;
} salvaged;

/* Behind n others. */
static inline void put_record(task on, size_t n, uint32_t key, uint8_t class)
{
    if (!on.writes)
        return;
    on.out_keys[n] = key;
    on.out_classes[n] = class;
}

static inline void put_entry(task on, size_t n, uint32_t of, uint32_t number)
{
    if (!on.writes)
        return;
    on.log[2 * n] = of;
    on.log[2 * n + 1] = number;
}

/* ---- Gaps ---- */

/* Fills up to a place. */
static inline void fill_gap(task on, salvaged *so_far, uint32_t end)
{
    spot at = so_far->to.at;
    while (at.place < end) {
        uint32_t i = largest(at.top, end - at.place), key = key_here(at, i);
        put_record(on, so_far->records++, key, NOT_SEEN);
        put_entry(on, so_far->entries++, key, GAP);
        at = advance(key, i, at.place);
    }
    so_far->to.at = at;
}

/* ---- Records ---- */

/* Keeps records as long as each starts where the last one's span ended. */
static inline void keep_along(task on, salvaged *so_far)
{
    gone to = so_far->to;
    size_t n = so_far->records;
    uint32_t exponent;
    while (to.next < on.q && exponent_at(on.m, to.at, on.keys[to.next], &exponent)) {
        put_record(on, n++, on.keys[to.next], on.classes[to.next]);
        to.at = advance(on.keys[to.next], exponent, to.at.place);
        to.next++;
    }
    so_far->to = to;
    so_far->records = n;
}

/*
 * A record that does not start at the place reached is dropped, or stands behind a gap. Inlined, or else gcc hands over
 * the whole task each time.
 */
__attribute__((always_inline)) static inline void take_misfit(task on, salvaged *so_far)
{
    size_t next = so_far->to.next++;
    uint32_t key = on.keys[next], exponent, start;
    if (!read_key(on.m, key, &exponent, &start))
        put_entry(on, so_far->entries++, (uint32_t)next, MALFORMED);
    else if (start < so_far->to.at.place)
        put_entry(on, so_far->entries++, (uint32_t)next, EARLY);
    else {
        fill_gap(on, so_far, start);
        put_record(on, so_far->records++, key, on.classes[next]);
        so_far->to.at = advance(key, exponent, start);
    }
}

/* Inlined, so that the compiler knows of each pass whether it writes. */
__attribute__((always_inline)) static inline salvaged pass(task on)
{
    salvaged so_far = {{first_spot(on.m), 0}, 0, 0};
    keep_along(on, &so_far);
    while (so_far.to.next < on.q) {
        take_misfit(on, &so_far);
        keep_along(on, &so_far);
    }
    fill_gap(on, &so_far, pixels(on.m));
    return so_far;
}

/* ---- The call ---- */

/* Refusals 2 and 8, by the size of the result. */
static inline lutniorad_answer fitting(salvaged all, size_t n_keys, size_t n_classes, size_t n_log)
{
    if (all.records > MOST_OF_RESULT)
        return refused(2, 0);
    if (n_keys < all.records || n_classes < all.records)
        return refused(8, (uint32_t)all.records);
    if (n_log < 2 * all.entries)
        return refused(8, (uint32_t)(2 * all.entries));
    return answered((uint32_t)all.records, (uint32_t)all.entries);
}

lutniorad_answer plain_salvage(uint32_t m, const uint32_t *keys, size_t n_keys, const uint8_t *classes,
                               size_t n_classes, uint32_t *out_keys, size_t n_out_keys, uint8_t *out_classes,
                               size_t n_out_classes, uint32_t *log, size_t n_log)
{
    task counting = {m, keys, classes, n_keys, false, out_keys, out_classes, log}, writing = counting;
    lutniorad_answer verdict = sized_with_gaps(m, n_keys, n_classes);
    writing.writes = true;
    if (verdict.refusal == 0)
        verdict = fitting(pass(counting), n_out_keys, n_out_classes, n_log);
    if (verdict.refusal == 0)
        pass(writing);
    return verdict;
}
