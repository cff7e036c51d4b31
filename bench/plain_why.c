/* The library's algorithm in plain C: why a record or a maximal block is on the list of openings, or is not. */
#include "openings.h"
#include "programs.h"

static lutniorad_reason answered_by(uint32_t said, uint32_t record, uint32_t number)
{
    lutniorad_reason reason = {0, 0, said, record, number};
    return reason;
}

static lutniorad_reason refused_by(uint32_t refusal, uint32_t at)
{
    lutniorad_reason reason = {refusal, at, 0, 0, 0};
    return reason;
}

/* ---- Where a record lies ---- */

enum { ACROSS = 0 };

/* What is said of a square, if it lies on a side of the window; otherwise ACROSS. */
static uint32_t square_lies(window at, square of)
{
    uint32_t side = 1u << of.exponent;
    if (of.row + side <= at.r0)
        return LUTNIORAD_NORTH;
    if (at.r0 + at.h <= of.row)
        return LUTNIORAD_SOUTH;
    if (of.col + side <= at.c0)
        return LUTNIORAD_WEST;
    if (at.c0 + at.w <= of.col)
        return LUTNIORAD_EAST;
    return ACROSS;
}

/* ---- Whether a block is maximal, and the record of its corner ---- */

static bool has_pixel(window at, square of)
{
    return at.r0 <= of.row && of.row < at.r0 + at.h && at.c0 <= of.col && of.col < at.c0 + at.w;
}

/* From the corner of a maximal block on, the walk comes to it first. */
static bool maximal(uint32_t m, window at, uint32_t key, square of)
{
    block next;
    return has_pixel(at, of) && next_block(at, m, of.row, of.col, &next)
           && block_key(m, next.exponent, next.row, next.col) == key;
}

static uint32_t record_at(work on, square of)
{
    return (uint32_t)keys_below(on.keys, on.q, pixel_key(on.m, of.row, of.col) + 1, 0) - 1;
}

/* ---- Which opening hands out a record ---- */

typedef struct {
    uint32_t number, key;
} brought;

/* Goes from opening to opening until one hands out the record. */
static brought bring(work on, uint32_t index)
{
    place p = begin(on);
    opening o;
    brought by = {0, 0};
    for (; next_opening(on, &p, &o); by.number++)
        if (o.records.first <= index && index < o.records.first + o.records.count) {
            fill(on.border, 0, on.at.w, on.at.r0 + on.at.h);
            by.key = o.key;
            break;
        }
    return by;
}

/* ---- The calls ---- */

lutniorad_reason plain_why_record(uint32_t m, const uint32_t *keys, size_t n_keys, const uint8_t *classes,
                                  size_t n_classes, uint16_t r0, uint16_t c0, uint16_t h, uint16_t w, uint32_t record,
                                  uint16_t *border, size_t n_border)
{
    work on = {m, keys, n_keys, {r0, c0, h, w}, border};
    lutniorad_answer verdict = usable(m, keys, n_keys, n_classes, on.at, n_border);
    uint32_t side;
    (void)classes;
    if (verdict.refusal != 0)
        return refused_by(verdict.refusal, verdict.place);
    if (n_keys <= record)
        return refused_by(19, 0);
    side = square_lies(on.at, square_of(m, keys[record]));
    if (side != ACROSS) {
        fill(border, 0, w, (uint32_t)r0 + h);
        return answered_by(side, record, 0);
    }
    return answered_by(LUTNIORAD_HANDED_OUT, record, bring(on, record).number);
}

/* The record of the block's corner is handed out there or, where the block lies in it, at an earlier one. */
lutniorad_reason plain_why_block(uint32_t m, const uint32_t *keys, size_t n_keys, const uint8_t *classes,
                                 size_t n_classes, uint16_t r0, uint16_t c0, uint16_t h, uint16_t w, uint32_t key,
                                 uint16_t *border, size_t n_border)
{
    work on = {m, keys, n_keys, {r0, c0, h, w}, border};
    lutniorad_answer verdict = usable(m, keys, n_keys, n_classes, on.at, n_border);
    square of = square_of(m, key);
    uint32_t record;
    brought by;
    (void)classes;
    if (verdict.refusal != 0)
        return refused_by(verdict.refusal, verdict.place);
    if (!maximal(m, on.at, key, of))
        return refused_by(22, 0);
    record = record_at(on, of);
    by = bring(on, record);
    if (by.key == key)
        return answered_by(LUTNIORAD_OPENED, 0, by.number);
    return answered_by(LUTNIORAD_SKIPPED, record, by.number);
}
