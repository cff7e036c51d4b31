/* The library's algorithm in plain C: the operations. */
#include "programs.h"
#include "totals.h"

/* ---- Check and decompose ---- */

lutniorad_answer plain_check(uint32_t m, const uint32_t *keys, size_t n_keys, const uint8_t *classes, size_t n_classes)
{
    (void)classes;
    return sound(m, keys, n_keys, n_classes);
}

/* The keys of the maximal blocks; returns how many there are. */
static uint32_t put_keys(uint32_t m, window at, uint32_t *out, size_t n_out)
{
    block b;
    uint32_t row = at.r0, col = at.c0, n = 0;
    while (next_block(at, m, row, col, &b)) {
        put_key(out, n_out, n++, block_key(m, b.exponent, b.row, b.col));
        row = b.row;
        col = b.after;
    }
    return n;
}

lutniorad_answer plain_decompose(uint32_t m, uint16_t r0, uint16_t c0, uint16_t h, uint16_t w, uint32_t *out,
                                 size_t n_out)
{
    window at = {r0, c0, h, w};
    if (m > 12)
        return refused(1, 0);
    if (outside(m, at))
        return refused(6, 0);
    if (n_out < 4 * ((size_t)w + h)) {
        uint32_t needed = put_keys(m, at, out, 0);
        if (n_out < needed)
            return refused(8, needed);
    }
    return answered(put_keys(m, at, out, n_out), 0);
}

/* ---- Opening ---- */

static lutniorad_answer pass(work on, uint32_t *out, size_t n_out)
{
    place p = begin(on);
    opening o;
    uint32_t openings = 0, handed = 0;
    while (next_opening(on, &p, &o)) {
        put_opening(out, n_out, openings++, o.key, o.records);
        handed += o.records.count;
    }
    return answered(openings, handed);
}

lutniorad_answer plain_open(uint32_t m, const uint32_t *keys, size_t n_keys, const uint8_t *classes, size_t n_classes,
                            uint16_t r0, uint16_t c0, uint16_t h, uint16_t w, uint16_t *border, size_t n_border,
                            uint32_t *out, size_t n_out)
{
    work on = {m, keys, n_keys, {r0, c0, h, w}, border};
    lutniorad_answer verdict = usable(m, keys, n_keys, n_classes, on.at, n_border);
    (void)classes;
    if (verdict.refusal != 0)
        return verdict;
    if (n_out < 12 * ((size_t)w + h)) {
        uint32_t needed = 3 * pass(on, out, 0).first;
        if (n_out < needed)
            return refused(8, needed);
    }
    return pass(on, out, n_out);
}

/* ---- Queries ---- */

/* Some records, looked through: one has the class, one was not seen. */
typedef struct {
    bool has, unseen;
} looked;

/* Looks through the records to the last, also where one has the class. */
static looked look(const uint8_t *classes, uint8_t class, run records)
{
    looked some = {false, false};
    for (uint32_t i = records.first; i < records.first + records.count; i++) {
        some.has |= classes[i] == class;
        some.unseen |= classes[i] == NOT_SEEN;
    }
    return some;
}

/* Goes from opening to opening until a record has the class. */
static uint32_t seek(work on, const uint8_t *classes, uint8_t class)
{
    place p = begin(on);
    opening o;
    bool unseen = false;
    while (next_opening(on, &p, &o)) {
        looked some = look(classes, class, o.records);
        if (some.has) {
            fill(on.border, 0, on.at.w, on.at.r0 + on.at.h);
            return LUTNIORAD_YES;
        }
        unseen |= some.unseen;
    }
    return unseen ? LUTNIORAD_CANNOT_TELL : LUTNIORAD_NO;
}

lutniorad_answer plain_exist(uint32_t m, const uint32_t *keys, size_t n_keys, const uint8_t *classes, size_t n_classes,
                             uint16_t r0, uint16_t c0, uint16_t h, uint16_t w, uint8_t class, uint16_t *border,
                             size_t n_border)
{
    work on = {m, keys, n_keys, {r0, c0, h, w}, border};
    lutniorad_answer verdict = usable(m, keys, n_keys, n_classes, on.at, n_border);
    if (verdict.refusal != 0)
        return verdict;
    return answered(seek(on, classes, class), 0);
}

static void report_totals(work on, const uint8_t *classes, uint32_t *out)
{
    place p = begin(on);
    opening o;
    uint32_t totals[256] = {0};
    while (next_opening(on, &p, &o))
        gather(on, classes, o, totals);
    for (int i = 0; i < 256; i++)
        out[i] = totals[i];
}

lutniorad_answer plain_report(uint32_t m, const uint32_t *keys, size_t n_keys, const uint8_t *classes,
                              size_t n_classes, uint16_t r0, uint16_t c0, uint16_t h, uint16_t w, uint16_t *border,
                              size_t n_border, uint32_t *out, size_t n_out)
{
    work on = {m, keys, n_keys, {r0, c0, h, w}, border};
    lutniorad_answer verdict = usable(m, keys, n_keys, n_classes, on.at, n_border);
    if (verdict.refusal != 0)
        return verdict;
    if (n_out < 256) {
        fill(border, 0, w, (uint32_t)r0 + h);
        return refused(8, 256);
    }
    report_totals(on, classes, out);
    return answered((uint32_t)h * w, 0);
}

/* A record around a block, by its number, its key and the end of its keys. None where the keys end where they begin. */
typedef struct {
    uint32_t first, from, end;
} known;

/* The records that overlap a block, and the last two records that were found around one. */
typedef struct {
    run records;
    known near, other;
} seen;

/* Nothing, unless one record is the whole picture. */
static seen first_seen(work on)
{
    seen none = {{0, 0, 0}, {0, 0, 0}, {0, 0, 0}};
    if (on.q == 1 && on.keys[0] == 0)
        none.near.end = pow5(on.m);
    return none;
}

/* Does the block of a key lie in this record? */
static inline bool lies_in(known record, uint32_t key)
{
    return key < record.end && record.from < key;
}

/* The other record is the nearer now. */
static inline seen exchanged(seen last)
{
    seen next = {last.records, last.other, last.near};
    return next;
}

/* The records of a block. A record around it is kept, and with it the nearer one so far. */
static inline seen look_up(work on, uint32_t key, uint32_t i, seen last)
{
    last.records = records_of(on.m, on.keys, on.q, key, i);
    if (i < last.records.reach) {
        uint32_t from = on.keys[last.records.first];
        known around = {last.records.first, from, from + pow5(last.records.reach)};
        last.other = last.near;
        last.near = around;
    }
    return last;
}

/* Lists the keys of the records in a block behind n others; returns how many there are then. */
static inline uint32_t pick_run(work on, const uint8_t *classes, run records, uint8_t class, uint32_t *out,
                                size_t n_out, uint32_t n)
{
    for (uint32_t i = records.first; i < records.first + records.count; i++)
        if (classes[i] == class)
            put_key(out, n_out, n++, on.keys[i]);
    return n;
}

/* The block's own key, where it lies in a record. */
static inline uint32_t pick_around(const uint8_t *classes, uint32_t key, uint32_t record, uint8_t class, uint32_t *out,
                                   size_t n_out, uint32_t n)
{
    if (classes[record] == class)
        put_key(out, n_out, n++, key);
    return n;
}

/* Of a block of exponent i and its records. */
static inline uint32_t pick(work on, const uint8_t *classes, uint32_t key, uint32_t i, run records, uint8_t class,
                            uint32_t *out, size_t n_out, uint32_t n)
{
    if (i < records.reach)
        return pick_around(classes, key, records.first, class, out, n_out, n);
    return pick_run(on, classes, records, class, out, n_out, n);
}

/* A block in one of the two records found last is not searched for. */
static uint32_t pick_all(work on, const uint8_t *classes, uint8_t class, uint32_t *out, size_t n_out)
{
    block b;
    seen last = first_seen(on);
    uint32_t row = on.at.r0, col = on.at.c0, n = 0;
    while (next_block(on.at, on.m, row, col, &b)) {
        uint32_t key = block_key(on.m, b.exponent, b.row, b.col);
        if (lies_in(last.near, key))
            n = pick_around(classes, key, last.near.first, class, out, n_out, n);
        else if (lies_in(last.other, key)) {
            last = exchanged(last);
            n = pick_around(classes, key, last.near.first, class, out, n_out, n);
        } else {
            last = look_up(on, key, b.exponent, last);
            n = pick(on, classes, key, b.exponent, last.records, class, out, n_out, n);
        }
        row = b.row;
        col = b.after;
    }
    return n;
}

lutniorad_answer plain_select(uint32_t m, const uint32_t *keys, size_t n_keys, const uint8_t *classes,
                              size_t n_classes, uint16_t r0, uint16_t c0, uint16_t h, uint16_t w, uint8_t class,
                              uint16_t *border, size_t n_border, uint32_t *out, size_t n_out)
{
    work on = {m, keys, n_keys, {r0, c0, h, w}, border};
    uint32_t needed;
    lutniorad_answer verdict = usable(m, keys, n_keys, n_classes, on.at, n_border);
    if (verdict.refusal != 0)
        return verdict;
    fill(border, 0, w, (uint32_t)r0 + h);
    if (n_out < 4 * ((size_t)w + h) + n_keys) {
        needed = pick_all(on, classes, class, out, 0);
        if (n_out < needed)
            return refused(8, needed);
    }
    return answered(pick_all(on, classes, class, out, n_out), 0);
}
