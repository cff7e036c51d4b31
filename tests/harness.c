#define _DEFAULT_SOURCE /* for memory from mmap without a file */

#include "harness.h"

#include "painted.h"

#include <inttypes.h>
#include <setjmp.h>
#include <signal.h>
#include <stdarg.h>
#include <stdio.h>
#include <stdlib.h>
#include <string.h>
#include <sys/mman.h>

/* ---- Random numbers ---- */

static uint64_t random_state;

uint64_t random_number(void) /* the generator known as splitmix64 */
{
    uint64_t z = random_state += 0x9E3779B97F4A7C15u;
    z = (z ^ z >> 30) * 0xBF58476D1CE4E5B9u;
    z = (z ^ z >> 27) * 0x94D049BB133111EBu;
    return z ^ z >> 31;
}

size_t below(size_t n)
{
    return (size_t)(random_number() % n);
}

size_t near_length(size_t right)
{
    size_t by = 1 + below(NEAR);
    return below(3) > 0 ? right : below(2) == 0 ? right + by : right > by ? right - by : 0;
}

/* ---- The two programs and their operations ---- */

const window NO_WINDOW = {0, 0, 0, 0};

typedef struct {
    void *cells;
    size_t length;
} slice;

/* Both calls that return a reason take the same. */
typedef lutniorad_reason explanation(uint32_t, const uint32_t *, size_t, const uint8_t *, size_t, uint16_t, uint16_t,
                                     uint16_t, uint16_t, uint32_t, uint16_t *, size_t);

typedef struct {
    lutniorad_answer (*check)(uint32_t, const uint32_t *, size_t, const uint8_t *, size_t);
    lutniorad_answer (*decompose)(uint32_t, uint16_t, uint16_t, uint16_t, uint16_t, uint32_t *, size_t);
    lutniorad_answer (*open)(uint32_t, const uint32_t *, size_t, const uint8_t *, size_t, uint16_t, uint16_t, uint16_t,
                             uint16_t, uint16_t *, size_t, uint32_t *, size_t);
    lutniorad_answer (*exist)(uint32_t, const uint32_t *, size_t, const uint8_t *, size_t, uint16_t, uint16_t, uint16_t,
                              uint16_t, uint8_t, uint16_t *, size_t);
    lutniorad_answer (*report)(uint32_t, const uint32_t *, size_t, const uint8_t *, size_t, uint16_t, uint16_t,
                               uint16_t, uint16_t, uint16_t *, size_t, uint32_t *, size_t);
    lutniorad_answer (*select)(uint32_t, const uint32_t *, size_t, const uint8_t *, size_t, uint16_t, uint16_t,
                               uint16_t, uint16_t, uint8_t, uint16_t *, size_t, uint32_t *, size_t);
    lutniorad_answer (*month_clear)(uint32_t, uint16_t, uint16_t, uint16_t, uint16_t, uint64_t *, size_t);
    lutniorad_answer (*month_add)(uint32_t, const uint32_t *, size_t, const uint8_t *, size_t, uint16_t *, size_t,
                                  uint64_t *, size_t);
    lutniorad_answer (*read)(const uint8_t *, size_t, uint32_t *, size_t, uint8_t *, size_t);
    lutniorad_answer (*write)(uint32_t, const uint32_t *, size_t, const uint8_t *, size_t, uint8_t *, size_t);
    lutniorad_answer (*decompose_tiled)(uint32_t, uint32_t, uint16_t, uint16_t, uint16_t, uint16_t, uint32_t *, size_t);
    lutniorad_answer (*open_tiled)(uint32_t, uint32_t, const uint32_t *, size_t, const uint8_t *, size_t, uint16_t,
                                   uint16_t, uint16_t, uint16_t, uint16_t *, size_t, uint32_t *, size_t);
    lutniorad_answer (*select_tiled)(uint32_t, uint32_t, const uint32_t *, size_t, const uint8_t *, size_t, uint16_t,
                                     uint16_t, uint16_t, uint16_t, uint8_t, uint16_t *, size_t, uint32_t *, size_t);
    lutniorad_answer (*windows)(uint32_t, const uint32_t *, size_t, const uint8_t *, size_t, const uint16_t *, size_t,
                                uint16_t *, size_t, uint32_t *, size_t);
    explanation *why_record, *why_block;
    lutniorad_answer (*sparse_check)(uint32_t, const uint32_t *, size_t, const uint8_t *, size_t);
    lutniorad_answer (*sparse_open)(uint32_t, uint32_t, const uint32_t *, size_t, const uint8_t *, size_t, uint16_t,
                                    uint16_t, uint16_t, uint16_t, uint16_t *, size_t, uint32_t *, size_t);
    lutniorad_answer (*sparse_exist)(uint32_t, uint8_t, const uint32_t *, size_t, const uint8_t *, size_t, uint16_t,
                                     uint16_t, uint16_t, uint16_t, uint8_t, uint16_t *, size_t);
    lutniorad_answer (*sparse_report)(uint32_t, uint8_t, const uint32_t *, size_t, const uint8_t *, size_t, uint16_t,
                                      uint16_t, uint16_t, uint16_t, uint16_t *, size_t, uint32_t *, size_t);
    lutniorad_answer (*sparse_select)(uint32_t, uint32_t, uint8_t, const uint32_t *, size_t, const uint8_t *, size_t,
                                      uint16_t, uint16_t, uint16_t, uint16_t, uint8_t, uint16_t *, size_t, uint32_t *,
                                      size_t);
    lutniorad_answer (*sparse_read)(const uint8_t *, size_t, uint32_t *, size_t, uint8_t *, size_t);
    lutniorad_answer (*sparse_write)(uint32_t, const uint32_t *, size_t, const uint8_t *, size_t, uint8_t *, size_t);
    lutniorad_answer (*salvage)(uint32_t, const uint32_t *, size_t, const uint8_t *, size_t, uint32_t *, size_t,
                                uint8_t *, size_t, uint32_t *, size_t);
    lutniorad_answer (*overlay_exist)(uint32_t, const uint32_t *, size_t, const uint8_t *, size_t, uint32_t,
                                      const uint32_t *, size_t, const uint8_t *, size_t, uint16_t, uint16_t, uint16_t,
                                      uint16_t, uint8_t, uint16_t *, size_t);
    lutniorad_answer (*overlay_report)(uint32_t, const uint32_t *, size_t, const uint8_t *, size_t, uint32_t,
                                       const uint32_t *, size_t, const uint8_t *, size_t, uint16_t, uint16_t, uint16_t,
                                       uint16_t, uint16_t *, size_t, uint32_t *, size_t);
    lutniorad_answer (*overlay_select)(uint32_t, const uint32_t *, size_t, const uint8_t *, size_t, uint32_t,
                                       const uint32_t *, size_t, const uint8_t *, size_t, uint16_t, uint16_t, uint16_t,
                                       uint16_t, uint8_t, uint16_t *, size_t, uint32_t *, size_t);
    lutniorad_part (*overlay_part)(uint32_t, const uint32_t *, size_t, const uint8_t *, size_t, uint32_t,
                                   const uint32_t *, size_t, const uint8_t *, size_t, uint32_t);
} program;

static const program library = {
    lutniorad_check,         lutniorad_decompose,       lutniorad_open,
    lutniorad_exist,         lutniorad_report,          lutniorad_select,
    lutniorad_month_clear,   lutniorad_month_add,       lutniorad_read,
    lutniorad_write,         lutniorad_decompose_tiled, lutniorad_open_tiled,
    lutniorad_select_tiled,  lutniorad_windows,         lutniorad_why_record,
    lutniorad_why_block,     lutniorad_sparse_check,    lutniorad_sparse_open,
    lutniorad_sparse_exist,  lutniorad_sparse_report,   lutniorad_sparse_select,
    lutniorad_sparse_read,   lutniorad_sparse_write,    lutniorad_salvage,
    lutniorad_overlay_exist, lutniorad_overlay_report,  lutniorad_overlay_select,
    lutniorad_overlay_part,
};
static const program reference = {
    reference_check,         reference_decompose,       reference_open,
    reference_exist,         reference_report,          reference_select,
    reference_month_clear,   reference_month_add,       reference_read,
    reference_write,         reference_decompose_tiled, reference_open_tiled,
    reference_select_tiled,  reference_windows,         reference_why_record,
    reference_why_block,     reference_sparse_check,    reference_sparse_open,
    reference_sparse_exist,  reference_sparse_report,   reference_sparse_select,
    reference_sparse_read,   reference_sparse_write,    reference_salvage,
    reference_overlay_exist, reference_overlay_report,  reference_overlay_select,
    reference_overlay_part,
};

uint32_t over(uint8_t background, uint8_t of_class)
{
    return 256u * background + of_class;
}

uint8_t background_of(uint32_t about)
{
    return (uint8_t)(about / 256);
}

uint8_t class_of(uint32_t about)
{
    return (uint8_t)about;
}

static lutniorad_answer run_check(const program *p, const call *c, const slice *s)
{
    return p->check(c->m, s[0].cells, s[0].length, s[1].cells, s[1].length);
}

static lutniorad_answer run_decompose(const program *p, const call *c, const slice *s)
{
    return p->decompose(c->m, c->at.r0, c->at.c0, c->at.h, c->at.w, s[0].cells, s[0].length);
}

static lutniorad_answer run_open(const program *p, const call *c, const slice *s)
{
    return p->open(c->m, s[0].cells, s[0].length, s[1].cells, s[1].length, c->at.r0, c->at.c0, c->at.h, c->at.w,
                   s[2].cells, s[2].length, s[3].cells, s[3].length);
}

static lutniorad_answer run_exist(const program *p, const call *c, const slice *s)
{
    return p->exist(c->m, s[0].cells, s[0].length, s[1].cells, s[1].length, c->at.r0, c->at.c0, c->at.h, c->at.w,
                    class_of(c->about), s[2].cells, s[2].length);
}

static lutniorad_answer run_report(const program *p, const call *c, const slice *s)
{
    return p->report(c->m, s[0].cells, s[0].length, s[1].cells, s[1].length, c->at.r0, c->at.c0, c->at.h, c->at.w,
                     s[2].cells, s[2].length, s[3].cells, s[3].length);
}

static lutniorad_answer run_select(const program *p, const call *c, const slice *s)
{
    return p->select(c->m, s[0].cells, s[0].length, s[1].cells, s[1].length, c->at.r0, c->at.c0, c->at.h, c->at.w,
                     class_of(c->about), s[2].cells, s[2].length, s[3].cells, s[3].length);
}

static lutniorad_answer run_month_clear(const program *p, const call *c, const slice *s)
{
    return p->month_clear(c->m, c->at.r0, c->at.c0, c->at.h, c->at.w, s[0].cells, s[0].length);
}

static lutniorad_answer run_month_add(const program *p, const call *c, const slice *s)
{
    return p->month_add(c->m, s[0].cells, s[0].length, s[1].cells, s[1].length, s[2].cells, s[2].length, s[3].cells,
                        s[3].length);
}

static lutniorad_answer run_read(const program *p, const call *c, const slice *s)
{
    (void)c; /* the file has m */
    return p->read(s[0].cells, s[0].length, s[1].cells, s[1].length, s[2].cells, s[2].length);
}

static lutniorad_answer run_write(const program *p, const call *c, const slice *s)
{
    return p->write(c->m, s[0].cells, s[0].length, s[1].cells, s[1].length, s[2].cells, s[2].length);
}

static lutniorad_answer run_decompose_tiled(const program *p, const call *c, const slice *s)
{
    return p->decompose_tiled(c->m, c->tile, c->at.r0, c->at.c0, c->at.h, c->at.w, s[0].cells, s[0].length);
}

static lutniorad_answer run_open_tiled(const program *p, const call *c, const slice *s)
{
    return p->open_tiled(c->m, c->tile, s[0].cells, s[0].length, s[1].cells, s[1].length, c->at.r0, c->at.c0, c->at.h,
                         c->at.w, s[2].cells, s[2].length, s[3].cells, s[3].length);
}

static lutniorad_answer run_select_tiled(const program *p, const call *c, const slice *s)
{
    return p->select_tiled(c->m, c->tile, s[0].cells, s[0].length, s[1].cells, s[1].length, c->at.r0, c->at.c0, c->at.h,
                           c->at.w, class_of(c->about), s[2].cells, s[2].length, s[3].cells, s[3].length);
}

static lutniorad_answer run_windows(const program *p, const call *c, const slice *s)
{
    return p->windows(c->m, s[0].cells, s[0].length, s[1].cells, s[1].length, s[2].cells, s[2].length, s[3].cells,
                      s[3].length, s[4].cells, s[4].length);
}

static lutniorad_answer run_sparse_check(const program *p, const call *c, const slice *s)
{
    return p->sparse_check(c->m, s[0].cells, s[0].length, s[1].cells, s[1].length);
}

static lutniorad_answer run_sparse_open(const program *p, const call *c, const slice *s)
{
    return p->sparse_open(c->m, c->tile, s[0].cells, s[0].length, s[1].cells, s[1].length, c->at.r0, c->at.c0, c->at.h,
                          c->at.w, s[2].cells, s[2].length, s[3].cells, s[3].length);
}

static lutniorad_answer run_sparse_exist(const program *p, const call *c, const slice *s)
{
    return p->sparse_exist(c->m, background_of(c->about), s[0].cells, s[0].length, s[1].cells, s[1].length, c->at.r0,
                           c->at.c0, c->at.h, c->at.w, class_of(c->about), s[2].cells, s[2].length);
}

static lutniorad_answer run_sparse_report(const program *p, const call *c, const slice *s)
{
    return p->sparse_report(c->m, background_of(c->about), s[0].cells, s[0].length, s[1].cells, s[1].length, c->at.r0,
                            c->at.c0, c->at.h, c->at.w, s[2].cells, s[2].length, s[3].cells, s[3].length);
}

static lutniorad_answer run_sparse_select(const program *p, const call *c, const slice *s)
{
    return p->sparse_select(c->m, c->tile, background_of(c->about), s[0].cells, s[0].length, s[1].cells, s[1].length,
                            c->at.r0, c->at.c0, c->at.h, c->at.w, class_of(c->about), s[2].cells, s[2].length,
                            s[3].cells, s[3].length);
}

static lutniorad_answer run_sparse_read(const program *p, const call *c, const slice *s)
{
    (void)c; /* the file has m */
    return p->sparse_read(s[0].cells, s[0].length, s[1].cells, s[1].length, s[2].cells, s[2].length);
}

static lutniorad_answer run_sparse_write(const program *p, const call *c, const slice *s)
{
    return p->sparse_write(c->m, s[0].cells, s[0].length, s[1].cells, s[1].length, s[2].cells, s[2].length);
}

static lutniorad_answer run_salvage(const program *p, const call *c, const slice *s)
{
    return p->salvage(c->m, s[0].cells, s[0].length, s[1].cells, s[1].length, s[2].cells, s[2].length, s[3].cells,
                      s[3].length, s[4].cells, s[4].length);
}

static lutniorad_answer run_overlay_exist(const program *p, const call *c, const slice *s)
{
    return p->overlay_exist(c->m, s[0].cells, s[0].length, s[1].cells, s[1].length, c->tile, s[2].cells, s[2].length,
                            s[3].cells, s[3].length, c->at.r0, c->at.c0, c->at.h, c->at.w, class_of(c->about),
                            s[4].cells, s[4].length);
}

static lutniorad_answer run_overlay_report(const program *p, const call *c, const slice *s)
{
    return p->overlay_report(c->m, s[0].cells, s[0].length, s[1].cells, s[1].length, c->tile, s[2].cells, s[2].length,
                             s[3].cells, s[3].length, c->at.r0, c->at.c0, c->at.h, c->at.w, s[4].cells, s[4].length,
                             s[5].cells, s[5].length);
}

static lutniorad_answer run_overlay_select(const program *p, const call *c, const slice *s)
{
    return p->overlay_select(c->m, s[0].cells, s[0].length, s[1].cells, s[1].length, c->tile, s[2].cells, s[2].length,
                             s[3].cells, s[3].length, c->at.r0, c->at.c0, c->at.h, c->at.w, class_of(c->about),
                             s[4].cells, s[4].length, s[5].cells, s[5].length);
}

/* A part has as many numbers as a reason, and they stand in its place. */
static lutniorad_reason take_part(const program *p, const call *c, const slice *s)
{
    lutniorad_part part = p->overlay_part(c->m, s[0].cells, s[0].length, s[1].cells, s[1].length, c->tile, s[2].cells,
                                          s[2].length, s[3].cells, s[3].length, c->about);
    lutniorad_reason reason = {part.refusal, part.place, part.map, part.first, part.count};
    return reason;
}

static lutniorad_reason explain(const program *p, const call *c, const slice *s)
{
    if (c->operation == &OVERLAY_PART)
        return take_part(p, c, s);
    explanation *why = c->operation == &WHY_RECORD ? p->why_record : p->why_block;
    return why(c->m, s[0].cells, s[0].length, s[1].cells, s[1].length, c->at.r0, c->at.c0, c->at.h, c->at.w, c->about,
               s[2].cells, s[2].length);
}

typedef struct {
    const char *name;
    size_t cell; /* bytes in a cell */
} parameter;

/* What an operation takes beside its slices. */
enum { M = 1, TILE = 2, WINDOW = 4, CLASS = 8, RECORD = 16, KEY = 32, BACKGROUND = 64, BASE_M = 128 };

struct operation {
    const char *name;
    lutniorad_answer (*run)(const program *, const call *, const slice *); /* NULL for a reason or a part */
    int takes;
    size_t n_slices;
    parameter slices[MOST_SLICES];
};

const operation CHECK = {"check", run_check, M, 2, {{"keys", 4}, {"classes", 1}}};
const operation DECOMPOSE = {"decompose", run_decompose, M | WINDOW, 1, {{"out", 4}}};
const operation OPEN = {"open", run_open, M | WINDOW, 4, {{"keys", 4}, {"classes", 1}, {"border", 2}, {"out", 4}}};
const operation EXIST = {"exist", run_exist, M | WINDOW | CLASS, 3, {{"keys", 4}, {"classes", 1}, {"border", 2}}};
const operation REPORT = {
    "report", run_report, M | WINDOW, 4, {{"keys", 4}, {"classes", 1}, {"border", 2}, {"totals", 4}}};
const operation SELECT = {
    "select", run_select, M | WINDOW | CLASS, 4, {{"keys", 4}, {"classes", 1}, {"border", 2}, {"out", 4}}};
const operation MONTH_CLEAR = {"month_clear", run_month_clear, M | WINDOW, 1, {{"table", 8}}};
const operation MONTH_ADD = {
    "month_add", run_month_add, M, 4, {{"keys", 4}, {"classes", 1}, {"border", 2}, {"table", 8}}};
const operation READ = {"read", run_read, 0, 3, {{"file", 1}, {"keys", 4}, {"classes", 1}}};
const operation WRITE = {"write", run_write, M, 3, {{"keys", 4}, {"classes", 1}, {"out", 1}}};
const operation DECOMPOSE_TILED = {"decompose_tiled", run_decompose_tiled, M | TILE | WINDOW, 1, {{"out", 4}}};
const operation OPEN_TILED = {
    "open_tiled", run_open_tiled, M | TILE | WINDOW, 4, {{"keys", 4}, {"classes", 1}, {"border", 2}, {"out", 4}}};
const operation SELECT_TILED = {"select_tiled",
                                run_select_tiled,
                                M | TILE | WINDOW | CLASS,
                                4,
                                {{"keys", 4}, {"classes", 1}, {"border", 2}, {"out", 4}}};
const operation WINDOWS = {
    "windows", run_windows, M, 5, {{"keys", 4}, {"classes", 1}, {"windows", 2}, {"border", 2}, {"out", 4}}};
const operation WHY_RECORD = {"why_record", NULL, M | WINDOW | RECORD, 3, {{"keys", 4}, {"classes", 1}, {"border", 2}}};
const operation WHY_BLOCK = {"why_block", NULL, M | WINDOW | KEY, 3, {{"keys", 4}, {"classes", 1}, {"border", 2}}};
const operation SPARSE_CHECK = {"sparse_check", run_sparse_check, M, 2, {{"keys", 4}, {"classes", 1}}};
const operation SPARSE_OPEN = {
    "sparse_open", run_sparse_open, M | TILE | WINDOW, 4, {{"keys", 4}, {"classes", 1}, {"border", 2}, {"out", 4}}};
const operation SPARSE_EXIST = {
    "sparse_exist", run_sparse_exist, M | BACKGROUND | WINDOW | CLASS, 3, {{"keys", 4}, {"classes", 1}, {"border", 2}}};
const operation SPARSE_REPORT = {"sparse_report",
                                 run_sparse_report,
                                 M | BACKGROUND | WINDOW,
                                 4,
                                 {{"keys", 4}, {"classes", 1}, {"border", 2}, {"totals", 4}}};
const operation SPARSE_SELECT = {"sparse_select",
                                 run_sparse_select,
                                 M | TILE | BACKGROUND | WINDOW | CLASS,
                                 4,
                                 {{"keys", 4}, {"classes", 1}, {"border", 2}, {"out", 4}}};
const operation SPARSE_READ = {"sparse_read", run_sparse_read, 0, 3, {{"file", 1}, {"keys", 4}, {"classes", 1}}};
const operation SPARSE_WRITE = {"sparse_write", run_sparse_write, M, 3, {{"keys", 4}, {"classes", 1}, {"out", 1}}};
const operation SALVAGE = {
    "salvage", run_salvage, M, 5, {{"keys", 4}, {"classes", 1}, {"out_keys", 4}, {"out_classes", 1}, {"log", 4}}};
const operation OVERLAY_EXIST = {"overlay_exist",
                                 run_overlay_exist,
                                 M | BASE_M | WINDOW | CLASS,
                                 5,
                                 {{"keys", 4}, {"classes", 1}, {"base_keys", 4}, {"base_classes", 1}, {"border", 2}}};
const operation OVERLAY_REPORT = {
    "overlay_report",
    run_overlay_report,
    M | BASE_M | WINDOW,
    6,
    {{"keys", 4}, {"classes", 1}, {"base_keys", 4}, {"base_classes", 1}, {"border", 2}, {"totals", 4}}};
const operation OVERLAY_SELECT = {
    "overlay_select",
    run_overlay_select,
    M | BASE_M | WINDOW | CLASS,
    6,
    {{"keys", 4}, {"classes", 1}, {"base_keys", 4}, {"base_classes", 1}, {"border", 2}, {"out", 4}}};
const operation OVERLAY_PART = {
    "overlay_part", NULL, M | BASE_M | KEY, 4, {{"keys", 4}, {"classes", 1}, {"base_keys", 4}, {"base_classes", 1}}};

static const operation *const operations[] = {
    &CHECK,       &DECOMPOSE,    &OPEN,         &EXIST,           &REPORT,         &SELECT,         &MONTH_CLEAR,
    &MONTH_ADD,   &READ,         &WRITE,        &DECOMPOSE_TILED, &OPEN_TILED,     &SELECT_TILED,   &WINDOWS,
    &WHY_RECORD,  &WHY_BLOCK,    &SPARSE_CHECK, &SPARSE_OPEN,     &SPARSE_EXIST,   &SPARSE_REPORT,  &SPARSE_SELECT,
    &SPARSE_READ, &SPARSE_WRITE, &SALVAGE,      &OVERLAY_EXIST,   &OVERLAY_REPORT, &OVERLAY_SELECT, &OVERLAY_PART};

/* What a call returned, number by number: the four of an answer, or the five of a reason or a part. */
enum { NUMBERS_OF_ANSWER = 4, NUMBERS_OF_REASON = 5 };

typedef struct {
    size_t n;
    uint32_t numbers[NUMBERS_OF_REASON];
} result;

static result of_answer(lutniorad_answer a)
{
    result r = {NUMBERS_OF_ANSWER, {a.refusal, a.place, a.first, a.second}};
    return r;
}

static result of_reason(lutniorad_reason a)
{
    result r = {NUMBERS_OF_REASON, {a.refusal, a.place, a.said, a.record, a.opening}};
    return r;
}

/* Or a part. */
static bool gives_reason(const call *c)
{
    return c->operation->run == NULL;
}

static result run(const program *p, const call *c, const slice *s)
{
    return gives_reason(c) ? of_reason(explain(p, c, s)) : of_answer(c->operation->run(p, c, s));
}

/* ---- Cases, and what is said when one fails ---- */

/* The cases of group g are numbered from g * CASES_OF_GROUP + 1. */
#define CASES_OF_GROUP UINT64_C(10000000)
#define EVERY_CASE UINT64_C(0)

static uint64_t seed = 1;
static uint64_t only_case = EVERY_CASE;
static bool go_on; /* with other seeds, until interrupted */
static uint64_t case_number;
static uint64_t calls;  /* compared so far, of this group */
static call running;    /* the last call */
static result returned; /* by the library in that call */

bool begin_case(void)
{
    case_number++;
    random_state = seed;
    random_state = random_number() + case_number;
    return only_case == EVERY_CASE || only_case == case_number;
}

static uint64_t cell_at(const void *cells, size_t cell, size_t i)
{
    return cell == 8   ? ((const uint64_t *)cells)[i]
           : cell == 4 ? ((const uint32_t *)cells)[i]
           : cell == 2 ? ((const uint16_t *)cells)[i]
                       : ((const uint8_t *)cells)[i];
}

static void print_call(const call *c)
{
    enum { MOST_SHOWN = 100 };
    printf("  call: %s", c->operation->name);
    if ((c->operation->takes & M) != 0)
        printf(", m %" PRIu32, c->m);
    if ((c->operation->takes & BASE_M) != 0)
        printf(", base_m %" PRIu32, c->tile);
    if ((c->operation->takes & TILE) != 0)
        printf(", tile %" PRIu32, c->tile);
    if ((c->operation->takes & BACKGROUND) != 0)
        printf(", background %d", background_of(c->about));
    if ((c->operation->takes & WINDOW) != 0)
        printf(", r0 %d, c0 %d, h %d, w %d", c->at.r0, c->at.c0, c->at.h, c->at.w);
    if ((c->operation->takes & CLASS) != 0)
        printf(", class %d", class_of(c->about));
    if ((c->operation->takes & RECORD) != 0)
        printf(", record %" PRIu32, c->about);
    if ((c->operation->takes & KEY) != 0)
        printf(", key %" PRIu32, c->about);
    for (size_t i = 0; i < c->operation->n_slices; i++) {
        const given *g = &c->slices[i];
        printf("\n    %s: %zu cells", c->operation->slices[i].name, g->length);
        for (size_t k = 0; g->content != NULL && k < g->length && k < MOST_SHOWN; k++)
            printf("%s%" PRIu64, k == 0 ? ": " : " ", cell_at(g->content, c->operation->slices[i].cell, k));
        if (g->content != NULL && g->length > MOST_SHOWN)
            printf(" ...");
    }
    printf("\n");
}

static void fail(const char *why, ...)
{
    va_list more;
    va_start(more, why);
    printf("MISMATCH: ");
    vprintf(why, more);
    printf("\n");
    va_end(more);
    if (running.operation != NULL) /* else it failed before the first call */
        print_call(&running);
    printf("run again: tests/run --seed %" PRIu64 " --case %" PRIu64 "\n", seed, case_number);
    exit(1);
}

void require(bool holds, const char *otherwise)
{
    if (!holds)
        fail("%s", otherwise);
}

/* All of them, for one line. */
enum { LINE = 80 };

static const char *numbers_of(result r, char line[LINE])
{
    int n = 0;
    for (size_t i = 0; i < r.n; i++)
        n += sprintf(line + n, "%s%" PRIu32, i == 0 ? "" : ", ", r.numbers[i]);
    return line;
}

/* Of the last call. */
static const char *names_of(result r)
{
    return r.n == NUMBERS_OF_ANSWER             ? "refusal, place, first, second"
           : running.operation == &OVERLAY_PART ? "refusal, place, map, first, count"
                                                : "refusal, place, said, record, opening";
}

static void require_result(result got, const char *whose, result expected)
{
    char line[LINE], other_line[LINE];
    if (memcmp(got.numbers, expected.numbers, sizeof got.numbers) != 0)
        fail("%s are %s; by %s: %s", names_of(got), numbers_of(got, line), whose, numbers_of(expected, other_line));
}

void require_answer(lutniorad_answer got, const char *whose, lutniorad_answer expected)
{
    require_result(of_answer(got), whose, of_answer(expected));
}

void require_stated(lutniorad_answer got, lutniorad_answer stated)
{
    require_answer(got, "the answer written out", stated);
}

void require_numbers(lutniorad_answer got, uint32_t refusal, uint32_t place, uint32_t first, uint32_t second)
{
    lutniorad_answer stated = {refusal, place, first, second};
    require_stated(got, stated);
}

void require_reason(lutniorad_reason stated)
{
    require_result(returned, "the reason written out", of_reason(stated));
}

void require_part(lutniorad_part stated)
{
    result r = {NUMBERS_OF_REASON, {stated.refusal, stated.place, stated.map, stated.first, stated.count}};
    require_result(returned, "the part written out", r);
}

/* ---- Rooms: where the slices of a call stand ---- */

/*
 * Each program has a room for each slice. A slice stands at the end of its room, between guard cells. In the second
 * round there are none behind it: it ends where the room does, and the memory behind the room cannot be touched at all.
 * GUARD is odd, so that bytes stand at odd addresses.
 *
 * A vast slice, of more cells than a room has, is really there for the library, in a room of its own. The programs have
 * no reason to touch more than its first cells, and these are what is laid out and compared.
 */
enum { LIBRARY, REFERENCE, SIDES };
enum { ROUNDS = 2, GUARD = 17, FENCE = 1 << 16, WIDEST_CELL = 8 };
enum { ROOM = 3 * PAINTED }; /* twice the longest log, and more; and the garbage, which paints stacks too, is as long */

static unsigned char *rooms[SIDES][MOST_SLICES];
static unsigned char *vast_rooms[MOST_SLICES];
static unsigned char garbage[ROUNDS][ROOM];

static unsigned char *new_room(size_t size)
{
    void *room = mmap(NULL, size + FENCE, PROT_READ | PROT_WRITE, MAP_PRIVATE | MAP_ANONYMOUS | MAP_NORESERVE, -1, 0);
    if (room == MAP_FAILED || mprotect((unsigned char *)room + size, FENCE, PROT_NONE) != 0) {
        perror("compare: memory for the slices");
        exit(2);
    }
    return room;
}

/* No byte of the garbage is the same in both rounds, so whatever is written over it shows in one of them. */
static void make_rooms(void)
{
    for (size_t i = 0; i < SIDES * MOST_SLICES; i++)
        rooms[i / MOST_SLICES][i % MOST_SLICES] = new_room(ROOM);
    for (size_t i = 0; i < ROOM; i++) {
        garbage[0][i] = (unsigned char)random_number();
        garbage[1][i] = (unsigned char)~garbage[0][i];
    }
}

static unsigned char *vast_room(size_t i)
{
    if (vast_rooms[i] == NULL)
        vast_rooms[i] = new_room(WIDEST_CELL * (VAST + ROOM));
    return vast_rooms[i];
}

/* Where a slice stands for each program: its first guard cell, and the bytes of guards and cells together. */
typedef struct {
    unsigned char *first[SIDES];
    size_t bytes;
} stand;

static stand lay_out(const call *c, size_t i, int round, slice slices[SIDES][MOST_SLICES])
{
    const given *g = &c->slices[i];
    size_t cell = c->operation->slices[i].cell;
    bool vast = g->length > ROOM / 2 / cell;
    size_t cells = vast ? CELLS_OF_VAST : g->length;
    stand at;
    at.bytes = (GUARD + cells + (round == 0 ? GUARD : 0)) * cell;
    for (int side = 0; side < SIDES; side++) {
        at.first[side] = vast && side == LIBRARY ? vast_room(i) : rooms[side][i] + ROOM - at.bytes;
        memcpy(at.first[side], garbage[round], at.bytes);
        slices[side][i].cells = at.first[side] + GUARD * cell;
        slices[side][i].length = g->length;
        if (g->content != NULL)
            memcpy(slices[side][i].cells, g->content, cells * cell);
    }
    return at;
}

/* ---- The stack ---- */

static bool watching;
static size_t deepest[COUNT(operations)];

/* The call that runs on the painted stack. */
static struct {
    const call *call;
    const slice *slices;
    lutniorad_answer answer;
    lutniorad_reason reason;
} watched;

void watch_stack(void)
{
    watching = true;
    memset(deepest, 0, sizeof deepest);
}

void end_watch(void)
{
    watching = false;
    for (size_t i = 0; i < COUNT(operations); i++) {
        if (only_case == EVERY_CASE && deepest[i] == 0)
            fail("the stack of %s was not looked at", operations[i]->name);
        printf("stack of %s: at most %zu bytes\n", operations[i]->name, deepest[i]);
    }
}

static void run_watched(void)
{
    watched.answer = watched.call->operation->run(&library, watched.call, watched.slices);
}

static void explain_watched(void)
{
    watched.reason = explain(&library, watched.call, watched.slices);
}

static result run_on_painted_stack(const call *c, const slice *slices, int round)
{
    size_t which = 0;
    watched.call = c;
    watched.slices = slices;
    size_t depth = run_painted(gives_reason(c) ? explain_watched : run_watched, garbage[round]);
    while (operations[which] != c->operation)
        which++;
    if (depth > deepest[which])
        deepest[which] = depth;
    if (depth > MOST_STACK)
        fail("the call takes %zu bytes of stack, more than %d", depth, MOST_STACK);
    return gives_reason(c) ? of_reason(watched.reason) : of_answer(watched.answer);
}

/* ---- The comparison ---- */

/* The library's slices of the last call, in the order of its parameters, and where these and their guards stand. */
static const void *last_slices[MOST_SLICES];
static stand last_stands[MOST_SLICES];

const void *left(size_t i)
{
    return last_slices[i];
}

static void compare_slice(const parameter *p, size_t length, const stand *at)
{
    size_t i = 0;
    if (memcmp(at->first[LIBRARY], at->first[REFERENCE], at->bytes) == 0)
        return;
    while (at->first[LIBRARY][i] == at->first[REFERENCE][i])
        i++;
    fail("after the call %s differs at cell %ld of %zu: byte %zu of that cell is %d, and must be %d", p->name,
         (long)(i / p->cell) - GUARD, length, i % p->cell, at->first[LIBRARY][i], at->first[REFERENCE][i]);
}

lutniorad_answer compare(call c)
{
    result results[ROUNDS];
    running = c;
    calls++;
    for (int round = 0; round < ROUNDS; round++) {
        slice slices[SIDES][MOST_SLICES];
        for (size_t i = 0; i < c.operation->n_slices; i++) {
            last_stands[i] = lay_out(&c, i, round, slices);
            last_slices[i] = slices[LIBRARY][i].cells;
        }
        results[round] =
            watching ? run_on_painted_stack(&c, slices[LIBRARY], round) : run(&library, &c, slices[LIBRARY]);
        require_result(results[round], "the independent program", run(&reference, &c, slices[REFERENCE]));
        for (size_t i = 0; i < c.operation->n_slices; i++)
            compare_slice(&c.operation->slices[i], c.slices[i].length, &last_stands[i]);
    }
    require_result(results[1], "the same call with other garbage", results[0]);
    returned = results[0];
    const uint32_t *n = returned.numbers;
    lutniorad_answer answer = {n[0], n[1], n[2], n[3]};
    return answer;
}

lutniorad_reason last_reason(void)
{
    const uint32_t *n = returned.numbers;
    lutniorad_reason reason = {n[0], n[1], n[2], n[3], n[4]};
    return reason;
}

lutniorad_part last_part(void)
{
    const lutniorad_reason r = last_reason();
    lutniorad_part part = {r.refusal, r.place, r.said, r.record, r.opening};
    return part;
}

void compare_with(const operation *other, lutniorad_answer answer)
{
    static unsigned char kept[MOST_SLICES][ROOM];
    call c = running, by_other = running;
    by_other.operation = other;
    for (size_t i = 0; i < c.operation->n_slices; i++)
        memcpy(kept[i], last_stands[i].first[LIBRARY], last_stands[i].bytes);
    lutniorad_answer others = compare(by_other);
    running = c;
    require_answer(answer, other->name, others);
    for (size_t i = 0; i < c.operation->n_slices; i++)
        if (memcmp(kept[i], last_stands[i].first[LIBRARY], last_stands[i].bytes) != 0)
            fail("%s leaves something else in %s", other->name, c.operation->slices[i].name);
}

/* ---- The run ---- */

static void run_group(const group *groups, size_t g)
{
    calls = 0;
    case_number = g * CASES_OF_GROUP;
    groups[g].run();
    printf("%s: %" PRIu64 " calls agree\n", groups[g].name, calls);
    fflush(stdout);
}

static void run_random_groups(const group *groups, size_t n_groups)
{
    seed++;
    printf("seed %" PRIu64 "\n", seed);
    for (size_t g = 0; g < n_groups; g++)
        if (groups[g].random)
            run_group(groups, g);
}

static bool take_number(const char *text, uint64_t *number)
{
    char *end;
    *number = strtoull(text, &end, 10);
    return *text != '\0' && *end == '\0';
}

static bool take_options(int argc, char **argv)
{
    for (int i = 1; i < argc; i++) {
        const char *value = i + 1 < argc ? argv[i + 1] : "";
        if (strcmp(argv[i], "--long") == 0)
            go_on = true;
        else if (strcmp(argv[i], "--seed") == 0 && take_number(value, &seed))
            i++;
        else if (strcmp(argv[i], "--case") == 0 && take_number(value, &only_case))
            i++;
        else
            return false;
    }
    return true;
}

/* A call that does not come back is a mismatch too. */
static sigjmp_buf back_in_run_groups;

static void on_signal(int number)
{
    siglongjmp(back_in_run_groups, number);
}

static void catch_signals(void)
{
    static const int numbers[] = {SIGSEGV, SIGBUS, SIGILL, SIGFPE, SIGTRAP, SIGABRT};
    for (size_t i = 0; i < COUNT(numbers); i++)
        signal(numbers[i], on_signal);
}

int run_groups(const group *groups, size_t n_groups, int argc, char **argv)
{
    int caught = sigsetjmp(back_in_run_groups, 1);
    if (caught != 0)
        fail("the call ended in signal %d, as it does when memory outside its slices is touched", caught);
    if (!take_options(argc, argv)) {
        fprintf(stderr, "usage: compare [--seed N] [--case K] [--long]\n");
        return 2;
    }
    make_rooms();
    catch_signals();
    for (size_t g = 0; g < n_groups; g++)
        if (only_case == EVERY_CASE || only_case / CASES_OF_GROUP == g)
            run_group(groups, g);
    if (calls == 0) {
        fprintf(stderr, "compare: there is no case %" PRIu64 "\n", only_case);
        return 2;
    }
    while (go_on)
        run_random_groups(groups, n_groups);
    return 0;
}
