/*
 * What is measured beside the library. Each function takes what the library's takes.
 *   plain     the library's algorithm
 *   fastest   the same answers for as few instructions as can be
 *   growing   opening with a list of all records fetched, in which each block is looked up
 *   every     Algorithm-1: each maximal block fetches its records; the answer counts the blocks and what they fetch
 */
#ifndef PROGRAMS_H
#define PROGRAMS_H

#include "lutniorad.h"

enum { NOT_SEEN = 255 }; /* the class of what the camera did not see */

typedef lutniorad_answer check_function(uint32_t m,
                                        const uint32_t *keys, size_t n_keys,
                                        const uint8_t *classes, size_t n_classes);

typedef lutniorad_answer decompose_function(uint32_t m,
                                            uint16_t r0, uint16_t c0, uint16_t h, uint16_t w,
                                            uint32_t *out, size_t n_out);

typedef lutniorad_answer open_function(uint32_t m,
                                       const uint32_t *keys, size_t n_keys,
                                       const uint8_t *classes, size_t n_classes,
                                       uint16_t r0, uint16_t c0, uint16_t h, uint16_t w,
                                       uint16_t *border, size_t n_border,
                                       uint32_t *out, size_t n_out);

typedef lutniorad_answer exist_function(uint32_t m,
                                        const uint32_t *keys, size_t n_keys,
                                        const uint8_t *classes, size_t n_classes,
                                        uint16_t r0, uint16_t c0, uint16_t h, uint16_t w, uint8_t class,
                                        uint16_t *border, size_t n_border);

typedef open_function report_function; /* the totals stand where the openings do */

typedef lutniorad_answer select_function(uint32_t m,
                                         const uint32_t *keys, size_t n_keys,
                                         const uint8_t *classes, size_t n_classes,
                                         uint16_t r0, uint16_t c0, uint16_t h, uint16_t w, uint8_t class,
                                         uint16_t *border, size_t n_border,
                                         uint32_t *out, size_t n_out);

typedef lutniorad_answer month_add_function(uint32_t m,
                                            const uint32_t *keys, size_t n_keys,
                                            const uint8_t *classes, size_t n_classes,
                                            uint16_t *border, size_t n_border,
                                            uint64_t *table, size_t n_table);

typedef lutniorad_answer windows_function(uint32_t m,
                                          const uint32_t *keys, size_t n_keys,
                                          const uint8_t *classes, size_t n_classes,
                                          const uint16_t *windows, size_t n_windows,
                                          uint16_t *border, size_t n_border,
                                          uint32_t *out, size_t n_out);

typedef lutniorad_reason why_function(uint32_t m,
                                      const uint32_t *keys, size_t n_keys,
                                      const uint8_t *classes, size_t n_classes,
                                      uint16_t r0, uint16_t c0, uint16_t h, uint16_t w,
                                      uint32_t number, /* the index of a record, or the key of a block */
                                      uint16_t *border, size_t n_border);

typedef lutniorad_answer salvage_function(uint32_t m,
                                          const uint32_t *keys, size_t n_keys,
                                          const uint8_t *classes, size_t n_classes,
                                          uint32_t *out_keys, size_t n_out_keys,
                                          uint8_t *out_classes, size_t n_out_classes,
                                          uint32_t *log, size_t n_log);

typedef lutniorad_answer overlay_exist_function(uint32_t m,
                                                const uint32_t *keys, size_t n_keys,
                                                const uint8_t *classes, size_t n_classes,
                                                uint32_t base_m,
                                                const uint32_t *base_keys, size_t n_base_keys,
                                                const uint8_t *base_classes, size_t n_base_classes,
                                                uint16_t r0, uint16_t c0, uint16_t h, uint16_t w, uint8_t class,
                                                uint16_t *border, size_t n_border);

typedef lutniorad_answer overlay_report_function(uint32_t m,
                                                 const uint32_t *keys, size_t n_keys,
                                                 const uint8_t *classes, size_t n_classes,
                                                 uint32_t base_m,
                                                 const uint32_t *base_keys, size_t n_base_keys,
                                                 const uint8_t *base_classes, size_t n_base_classes,
                                                 uint16_t r0, uint16_t c0, uint16_t h, uint16_t w,
                                                 uint16_t *border, size_t n_border,
                                                 uint32_t *out, size_t n_out);

typedef lutniorad_answer overlay_select_function(uint32_t m,
                                                 const uint32_t *keys, size_t n_keys,
                                                 const uint8_t *classes, size_t n_classes,
                                                 uint32_t base_m,
                                                 const uint32_t *base_keys, size_t n_base_keys,
                                                 const uint8_t *base_classes, size_t n_base_classes,
                                                 uint16_t r0, uint16_t c0, uint16_t h, uint16_t w, uint8_t class,
                                                 uint16_t *border, size_t n_border,
                                                 uint32_t *out, size_t n_out);

typedef lutniorad_part overlay_part_function(uint32_t m,
                                             const uint32_t *keys, size_t n_keys,
                                             const uint8_t *classes, size_t n_classes,
                                             uint32_t base_m,
                                             const uint32_t *base_keys, size_t n_base_keys,
                                             const uint8_t *base_classes, size_t n_base_classes,
                                             uint32_t key);

typedef lutniorad_answer read_function(const uint8_t *file, size_t n,
                                       uint32_t *keys, size_t n_keys,
                                       uint8_t *classes, size_t n_classes);

typedef lutniorad_answer write_function(uint32_t m,
                                        const uint32_t *keys, size_t n_keys,
                                        const uint8_t *classes, size_t n_classes,
                                        uint8_t *out, size_t n_out);

check_function plain_check, fastest_check;
decompose_function plain_decompose, fastest_decompose;
open_function plain_open, fastest_open, growing_open, every_open;
exist_function plain_exist, fastest_exist;
report_function plain_report, fastest_report;
select_function plain_select, fastest_select;
read_function plain_read, fastest_read;
write_function plain_write, fastest_write;
month_add_function plain_month_add;
windows_function plain_windows;
why_function plain_why_record, plain_why_block;
salvage_function plain_salvage;
overlay_exist_function plain_overlay_exist;
overlay_report_function plain_overlay_report;
overlay_select_function plain_overlay_select;
overlay_part_function plain_overlay_part;

/* Copies the keys and the classes of a map, and looks at none. */
void fastest_copy(const uint32_t *keys, const uint8_t *classes, size_t q, uint32_t *out_keys, uint8_t *out_classes);

#endif
