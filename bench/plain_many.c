/* The library's algorithm in plain C: many windows on one map. */
#include "openings.h"
#include "programs.h"

enum { CELLS_OF_WINDOW = 4, CELLS_OF_ANSWER = 5, MOST_WINDOWS = 256 };

static window window_in(const uint16_t *windows, size_t i)
{
    const uint16_t *cells = windows + i * CELLS_OF_WINDOW;
    window at = {cells[0], cells[1], cells[2], cells[3]};
    return at;
}

/* How wide the widest window inside the picture is. */
static uint32_t widest(uint32_t m, const uint16_t *windows, size_t n)
{
    uint32_t most = 0;
    for (size_t i = 0; i < n; i++) {
        window at = window_in(windows, i);
        if (!outside(m, at) && most < at.w)
            most = at.w;
    }
    return most;
}

/* Refusals 25, 7 and 8. */
static lutniorad_answer takable(uint32_t m, const uint16_t *windows, size_t n_windows, size_t n_border, size_t n_out)
{
    size_t n = n_windows / CELLS_OF_WINDOW;
    uint32_t most;
    if (n_windows % CELLS_OF_WINDOW != 0 || n > MOST_WINDOWS)
        return refused(25, 0);
    most = widest(m, windows, n);
    if (n_border < most)
        return refused(7, most);
    if (n_out < n * CELLS_OF_ANSWER)
        return refused(8, (uint32_t)n * CELLS_OF_ANSWER);
    return answered((uint32_t)n, 0);
}

/* From opening to opening, and none is written. */
static lutniorad_answer count(work on)
{
    place p = begin(on);
    opening o;
    uint32_t openings = 0, handed = 0;
    while (next_opening(on, &p, &o)) {
        openings++;
        handed += o.records.count;
    }
    return answered(openings, handed);
}

static void put_window(uint32_t *cells, lutniorad_answer counted, uint32_t pixels)
{
    cells[0] = counted.refusal;
    cells[1] = counted.place;
    cells[2] = counted.first;
    cells[3] = counted.second;
    cells[4] = pixels;
}

lutniorad_answer plain_windows(uint32_t m, const uint32_t *keys, size_t n_keys, const uint8_t *classes,
                               size_t n_classes, const uint16_t *windows, size_t n_windows, uint16_t *border,
                               size_t n_border, uint32_t *out, size_t n_out)
{
    lutniorad_answer verdict = sound(m, keys, n_keys, n_classes);
    (void)classes;
    if (verdict.refusal == 0)
        verdict = takable(m, windows, n_windows, n_border, n_out);
    if (verdict.refusal != 0)
        return verdict;
    for (size_t i = 0; i < verdict.first; i++) {
        work on = {m, keys, n_keys, window_in(windows, i), border};
        uint32_t *cells = out + i * CELLS_OF_ANSWER;
        if (outside(m, on.at))
            put_window(cells, refused(6, 0), 0);
        else
            put_window(cells, count(on), on.at.h * on.at.w);
    }
    return verdict;
}
