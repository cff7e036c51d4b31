#include "keys.h"

#include "harness.h"
#include "maps.h"

static map a;

static void add_record(uint32_t key)
{
    a.keys[a.q] = key;
    a.classes[a.q++] = 0;
}

static lutniorad_answer compare_check(void)
{
    call c = {&CHECK, a.m, NO_TILE, NO_WINDOW, NO_CLASS, {{a.keys, a.q}, {a.classes, a.q}}};
    return compare(c);
}

static uint32_t pixels(uint32_t exponent)
{
    return (uint32_t)1 << 2 * exponent;
}

uint32_t key_at(uint32_t m, uint32_t exponent, uint32_t place)
{
    uint32_t key = 0;
    for (uint32_t k = m; k-- > 0;)
        key = 5 * key + (k < exponent ? 0 : (place >> 2 * k & 3) + 1);
    return key;
}

/* A map of the first places, up to `end`, in blocks as large as they can be. */
static void reach(uint32_t m, uint32_t end)
{
    a.m = m;
    a.q = 0;
    for (uint32_t place = 0, i = m; place < end; place += pixels(i), i = m) {
        while (place % pixels(i) != 0 || end - place < pixels(i))
            i--;
        add_record(key_at(m, i, place));
    }
}

/* A key behind the records up to a place. */
static lutniorad_answer check_behind(uint32_t m, uint32_t end, uint32_t key)
{
    reach(m, end);
    add_record(key);
    return compare_check();
}

/* ---- Group: every number ---- */

static void every_number(uint32_t m)
{
    uint32_t beyond = power_of_5(m) + power_of_5(m) / 5 + 7;
    for (uint32_t number = 0; number < beyond; number++)
        check_behind(m, 0, number);
}

/* Each number behind each place. */
static void every_number_behind(uint32_t m)
{
    for (uint32_t end = 1; end <= pixels(m); end++)
        for (uint32_t number = 0; number < power_of_5(m) + 7; number++)
            check_behind(m, end, number);
}

void group_every_number(void)
{
    for (uint32_t m = 0; m <= 7; m++)
        if (begin_case())
            every_number(m);
    for (uint32_t m = 0; m <= 4; m++)
        if (begin_case())
            every_number_behind(m);
}

/* ---- Group: digits ---- */

uint32_t number_without(uint32_t m, uint32_t zeros)
{
    uint32_t number = 0;
    for (uint32_t k = m; k-- > 0;)
        number = 5 * number + (zeros >> k & 1 ? 0 : 1 + (uint32_t)below(4));
    return number;
}

/* Digits that are 0 in all ways: before others, between them, behind them. */
static void every_pattern(uint32_t m)
{
    for (uint32_t zeros = 0; zeros < (uint32_t)1 << m; zeros++)
        for (int i = 0; i < 3; i++) {
            check_behind(m, 0, number_without(m, zeros));
            check_behind(m, (uint32_t)below(pixels(m)), number_without(m, zeros));
        }
}

/* Blocks behind records that reach up to their first pixel, which fit, and to a pixel less or more: refused by 5, 4. */
static void blocks_of(uint32_t m, uint32_t exponent)
{
    for (int i = 0; i < 50; i++) {
        uint32_t place = (uint32_t)below(pixels(m - exponent)) << 2 * exponent, key = key_at(m, exponent, place);
        lutniorad_answer fits = check_behind(m, place, key);
        bool last = place + pixels(exponent) == pixels(m);
        require_numbers(fits, last ? 0 : 5, last ? 0 : (uint32_t)a.q, last ? (uint32_t)a.q : 0, 0);
        if (place > 0) {
            lutniorad_answer behind = check_behind(m, place - 1, key);
            require_numbers(behind, 5, (uint32_t)a.q - 1, 0, 0);
        }
        if (place + 1 < pixels(m)) {
            lutniorad_answer before = check_behind(m, place + 1, key);
            require_numbers(before, 4, (uint32_t)a.q - 1, 0, 0);
        }
    }
}

void group_digits(void)
{
    for (uint32_t m = 8; m <= 12; m++) {
        if (begin_case())
            every_pattern(m);
        for (uint32_t exponent = 0; exponent <= m; exponent++)
            if (begin_case())
                blocks_of(m, exponent);
    }
}
