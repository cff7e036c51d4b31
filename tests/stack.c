/*
 * How deep the stack grows in the first call of a process, and in the next, of every operation.
 *
 *     stack         no call may take more than MOST_STACK bytes
 *     stack lazy    the first may take MOST_BOUND
 *
 * The library calls memset and memcpy. Where they come from a shared C library and are bound late, the loader does that
 * inside the first call that needs them, on its stack. So each call that is looked at has a process of its own, and
 * nothing here calls the two before: tests/parts/stack.sh sees to that.
 */
#define _DEFAULT_SOURCE /* beyond C99, memory from mmap without a file */

#include "even.h"
#include "harness.h"
#include "painted.h"

#include <stdio.h>
#include <string.h>
#include <sys/mman.h>
#include <sys/wait.h>
#include <unistd.h>

/* What the loader needs hangs on its version and on how many registers the processor has, which it keeps meanwhile. */
enum { MOST_BOUND = 20000 };

/* ---- The calls ---- */

enum { TILE = 4 };
static even_map a, mended;
static window at;
static uint16_t twice[8]; /* the window, as a list */
static lutniorad_answer answer;

static uint16_t border[LUTNIORAD_MOST_SIDE];
static uint32_t out[LUTNIORAD_OPEN_TILED_CELLS(TILE, LUTNIORAD_MOST_SIDE, LUTNIORAD_MOST_SIDE)];
static uint64_t table[LUTNIORAD_MONTH_CELLS];
static uint8_t file[LUTNIORAD_MOST_FILE_BYTES];
static const uint8_t file_of_one[] = {25, 0, 0, 0, 2, 0, 0, 0, 1, 0, 0, 0, 20, 0, 0, 0, 24, 0, 0, 0, 0, 0, 0, 0, 1};

static void run_check(void)
{
    answer = lutniorad_check(a.m, a.keys, a.q, a.classes, a.q);
}

static void run_decompose(void)
{
    answer = lutniorad_decompose(a.m, at.r0, at.c0, at.h, at.w, out, COUNT(out));
}

static void run_open(void)
{
    answer = lutniorad_open(a.m, a.keys, a.q, a.classes, a.q, at.r0, at.c0, at.h, at.w, border, COUNT(border), out,
                            COUNT(out));
}

static void run_exist(void)
{
    answer = lutniorad_exist(a.m, a.keys, a.q, a.classes, a.q, at.r0, at.c0, at.h, at.w, 2, border, COUNT(border));
}

static void run_report(void)
{
    answer = lutniorad_report(a.m, a.keys, a.q, a.classes, a.q, at.r0, at.c0, at.h, at.w, border, COUNT(border), out,
                              COUNT(out));
}

static void run_select(void)
{
    answer = lutniorad_select(a.m, a.keys, a.q, a.classes, a.q, at.r0, at.c0, at.h, at.w, 1, border, COUNT(border),
                              out, COUNT(out));
}

static void run_month_clear(void)
{
    answer = lutniorad_month_clear(a.m, at.r0, at.c0, at.h, at.w, table, COUNT(table));
}

static void run_month_add(void)
{
    answer = lutniorad_month_add(a.m, a.keys, a.q, a.classes, a.q, border, COUNT(border), table, COUNT(table));
}

static void run_read(void)
{
    answer = lutniorad_read(file_of_one, sizeof file_of_one, a.keys, COUNT(a.keys), a.classes, COUNT(a.classes));
}

static void run_write(void)
{
    answer = lutniorad_write(a.m, a.keys, a.q, a.classes, a.q, file, sizeof file);
}

static void run_decompose_tiled(void)
{
    answer = lutniorad_decompose_tiled(a.m, TILE, at.r0, at.c0, at.h, at.w, out, COUNT(out));
}

static void run_open_tiled(void)
{
    answer = lutniorad_open_tiled(a.m, TILE, a.keys, a.q, a.classes, a.q, at.r0, at.c0, at.h, at.w, border,
                                  COUNT(border), out, COUNT(out));
}

static void run_select_tiled(void)
{
    answer = lutniorad_select_tiled(a.m, TILE, a.keys, a.q, a.classes, a.q, at.r0, at.c0, at.h, at.w, 1, border,
                                    COUNT(border), out, COUNT(out));
}

static void run_windows(void)
{
    answer = lutniorad_windows(a.m, a.keys, a.q, a.classes, a.q, twice, COUNT(twice), border, COUNT(border), out,
                               COUNT(out));
}

static void run_why_record(void)
{
    lutniorad_reason reason = lutniorad_why_record(a.m, a.keys, a.q, a.classes, a.q, at.r0, at.c0, at.h, at.w,
                                                   (uint32_t)a.q - 1, border, COUNT(border));
    answer.refusal = reason.refusal;
}

/* It is a maximal block: each larger one around it has the last column of the picture, which the window leaves out. */
static uint32_t key_of_last_pixel(void)
{
    const uint32_t row = at.r0 + at.h - 1u, col = at.c0 + at.w - 1u;
    uint32_t key = 0;
    for (uint32_t i = a.m; i-- > 0;)
        key = 5 * key + 1 + 2 * (row >> i & 1) + (col >> i & 1);
    return key;
}

static void run_why_block(void)
{
    lutniorad_reason reason = lutniorad_why_block(a.m, a.keys, a.q, a.classes, a.q, at.r0, at.c0, at.h, at.w,
                                                  key_of_last_pixel(), border, COUNT(border));
    answer.refusal = reason.refusal;
}

/* The map without its first record: so it has a gap, and where that is all it has, nothing else. */
static void run_sparse_check(void)
{
    answer = lutniorad_sparse_check(a.m, a.keys + 1, a.q - 1, a.classes + 1, a.q - 1);
}

static void run_sparse_open(void)
{
    answer = lutniorad_sparse_open(a.m, TILE, a.keys + 1, a.q - 1, a.classes + 1, a.q - 1, at.r0, at.c0, at.h, at.w,
                                   border, COUNT(border), out, COUNT(out));
}

static void run_sparse_exist(void)
{
    answer = lutniorad_sparse_exist(a.m, 3, a.keys + 1, a.q - 1, a.classes + 1, a.q - 1, at.r0, at.c0, at.h, at.w, 2,
                                    border, COUNT(border));
}

static void run_sparse_report(void)
{
    answer = lutniorad_sparse_report(a.m, 3, a.keys + 1, a.q - 1, a.classes + 1, a.q - 1, at.r0, at.c0, at.h, at.w,
                                     border, COUNT(border), out, COUNT(out));
}

static void run_sparse_select(void)
{
    answer = lutniorad_sparse_select(a.m, TILE, 1, a.keys + 1, a.q - 1, a.classes + 1, a.q - 1, at.r0, at.c0, at.h,
                                     at.w, 1, border, COUNT(border), out, COUNT(out));
}

static void run_sparse_read(void)
{
    answer = lutniorad_sparse_read(file_of_one, sizeof file_of_one, a.keys, COUNT(a.keys), a.classes, COUNT(a.classes));
}

static void run_sparse_write(void)
{
    answer = lutniorad_sparse_write(a.m, a.keys + 1, a.q - 1, a.classes + 1, a.q - 1, file, sizeof file);
}

/* The first record is missing, one stands twice, and one has no block's key. */
static void run_salvage(void)
{
    a.keys[2] = a.keys[1];
    a.keys[3] = UINT32_MAX;
    answer = lutniorad_salvage(a.m, a.keys + 1, a.q - 1, a.classes + 1, a.q - 1, mended.keys, COUNT(mended.keys),
                               mended.classes, COUNT(mended.classes), out, COUNT(out));
}

/* The map without its first record over the whole of it. */
static void run_overlay_exist(void)
{
    answer = lutniorad_overlay_exist(a.m, a.keys + 1, a.q - 1, a.classes + 1, a.q - 1, a.m, a.keys, a.q, a.classes,
                                     a.q, at.r0, at.c0, at.h, at.w, 2, border, COUNT(border));
}

static void run_overlay_report(void)
{
    answer = lutniorad_overlay_report(a.m, a.keys + 1, a.q - 1, a.classes + 1, a.q - 1, a.m, a.keys, a.q, a.classes,
                                      a.q, at.r0, at.c0, at.h, at.w, border, COUNT(border), out, COUNT(out));
}

static void run_overlay_select(void)
{
    answer = lutniorad_overlay_select(a.m, a.keys + 1, a.q - 1, a.classes + 1, a.q - 1, a.m, a.keys, a.q, a.classes,
                                      a.q, at.r0, at.c0, at.h, at.w, 1, border, COUNT(border), out, COUNT(out));
}

static void run_overlay_part(void)
{
    lutniorad_part part = lutniorad_overlay_part(a.m, a.keys + 1, a.q - 1, a.classes + 1, a.q - 1, a.m, a.keys, a.q,
                                                 a.classes, a.q, key_of_last_pixel());
    answer.refusal = part.refusal;
}

static const struct {
    const char *name;
    void (*run)(void);
} calls[] = {
    {"check", run_check},
    {"decompose", run_decompose},
    {"open", run_open},
    {"exist", run_exist},
    {"report", run_report},
    {"select", run_select},
    {"month_clear", run_month_clear},
    {"month_add", run_month_add},
    {"read", run_read},
    {"write", run_write},
    {"decompose_tiled", run_decompose_tiled},
    {"open_tiled", run_open_tiled},
    {"select_tiled", run_select_tiled},
    {"windows", run_windows},
    {"why_record", run_why_record},
    {"why_block", run_why_block},
    {"sparse_check", run_sparse_check},
    {"sparse_open", run_sparse_open},
    {"sparse_exist", run_sparse_exist},
    {"sparse_report", run_sparse_report},
    {"sparse_select", run_sparse_select},
    {"sparse_read", run_sparse_read},
    {"sparse_write", run_sparse_write},
    {"salvage", run_salvage},
    {"overlay_exist", run_overlay_exist},
    {"overlay_report", run_overlay_report},
    {"overlay_select", run_overlay_select},
    {"overlay_part", run_overlay_part},
};

/* ---- The depths ---- */

/* Of the last process: how deep its two calls went. */
static struct {
    size_t first, next;
} *seen;

/* A byte that is left as the paint is, by chance, is not so with the other paint. */
static void call_twice(void (*run)(void), int color)
{
    static unsigned char paint[PAINTED];
    for (size_t i = 0; i < PAINTED; i++)
        paint[i] = (unsigned char)color;
    seen->first = run_painted(run, paint);
    seen->next = answer.refusal == 0 ? run_painted(run, paint) : PAINTED;
}

static void look(void (*run)(void), size_t *first, size_t *next)
{
    static const int colors[] = {0x5A, 0xA5};
    for (size_t i = 0; i < COUNT(colors); i++) {
        int status = 1;
        pid_t child = fork();
        if (child == 0) {
            call_twice(run, colors[i]);
            _exit(0);
        }
        if (waitpid(child, &status, 0) != child || status != 0)
            seen->first = PAINTED;
        *first = seen->first > *first ? seen->first : *first;
        *next = seen->next > *next ? seen->next : *next;
    }
}

/* A month of no map, made without a call. */
static void begin_month(void)
{
    table[TABLE_M] = a.m;
    table[TABLE_R0] = at.r0;
    table[TABLE_C0] = at.c0;
    table[TABLE_H] = at.h;
    table[TABLE_W] = at.w;
}

/* A list of the window and of the same again. */
static void begin_list(void)
{
    for (size_t i = 0; i < COUNT(twice); i += 4) {
        twice[i] = at.r0;
        twice[i + 1] = at.c0;
        twice[i + 2] = at.h;
        twice[i + 3] = at.w;
    }
}

/* On the longest maps and on one record, a strip across the middle of the picture and all of it but its edge. */
static bool hold_depth(size_t i, size_t most_of_first)
{
    size_t first = 0, next = 0;
    for (uint32_t kind = 0; kind < 3; kind++) {
        make_even_map(&a, kind == 0 ? 8 : 12, kind == 1 ? 0 : 8, 1);
        uint16_t side = (uint16_t)(1 << a.m), most = (uint16_t)(side - 2);
        const window windows[] = {{(uint16_t)(side / 2 - 7), 1, 14, most}, {1, 1, most, most}};
        for (size_t k = 0; k < COUNT(windows); k++) {
            at = windows[k];
            begin_month();
            begin_list();
            look(calls[i].run, &first, &next);
        }
    }
    printf("stack of %s: at most %zu bytes in the first call, %zu in the next\n", calls[i].name, first, next);
    return first <= most_of_first && next <= MOST_STACK;
}

int main(int argc, char **argv)
{
    bool lazy = argc == 2 && strcmp(argv[1], "lazy") == 0, holds = true;
    seen = mmap(NULL, sizeof *seen, PROT_READ | PROT_WRITE, MAP_SHARED | MAP_ANONYMOUS, -1, 0);
    if (seen == MAP_FAILED)
        return 2;
    for (size_t i = 0; i < COUNT(calls); i++)
        holds = hold_depth(i, lazy ? MOST_BOUND : MOST_STACK) && holds;
    return !holds;
}
