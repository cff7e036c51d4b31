/*
 * The independent program: every operation of lutniorad.h once more, by brute force and from the words of its rules.
 *
 * Each function takes what the library's takes. It returns the answer that the library must give, and leaves in the
 * lent slices what the library must leave in them. It touches no cell that the answer does not call for, so a slice
 * that is refused for its length alone need not be there in full.
 */
#ifndef REFERENCE_H
#define REFERENCE_H

#include "lutniorad.h"

#include <stdbool.h>

typedef struct {
    uint16_t r0, c0, h, w;
} window;

lutniorad_answer reference_check(uint32_t m,
                                 const uint32_t *keys, size_t n_keys,
                                 const uint8_t *classes, size_t n_classes);

lutniorad_answer reference_decompose(uint32_t m,
                                     uint16_t r0, uint16_t c0, uint16_t h, uint16_t w,
                                     uint32_t *out, size_t n_out);

lutniorad_answer reference_decompose_tiled(uint32_t m, uint32_t tile,
                                           uint16_t r0, uint16_t c0, uint16_t h, uint16_t w,
                                           uint32_t *out, size_t n_out);

lutniorad_answer reference_open(uint32_t m,
                                const uint32_t *keys, size_t n_keys,
                                const uint8_t *classes, size_t n_classes,
                                uint16_t r0, uint16_t c0, uint16_t h, uint16_t w,
                                uint16_t *border, size_t n_border,
                                uint32_t *out, size_t n_out);

lutniorad_answer reference_open_tiled(uint32_t m, uint32_t tile,
                                      const uint32_t *keys, size_t n_keys,
                                      const uint8_t *classes, size_t n_classes,
                                      uint16_t r0, uint16_t c0, uint16_t h, uint16_t w,
                                      uint16_t *border, size_t n_border,
                                      uint32_t *out, size_t n_out);

lutniorad_answer reference_windows(uint32_t m,
                                   const uint32_t *keys, size_t n_keys,
                                   const uint8_t *classes, size_t n_classes,
                                   const uint16_t *windows, size_t n_windows,
                                   uint16_t *border, size_t n_border,
                                   uint32_t *out, size_t n_out);

lutniorad_reason reference_why_record(uint32_t m,
                                      const uint32_t *keys, size_t n_keys,
                                      const uint8_t *classes, size_t n_classes,
                                      uint16_t r0, uint16_t c0, uint16_t h, uint16_t w,
                                      uint32_t record,
                                      uint16_t *border, size_t n_border);

lutniorad_reason reference_why_block(uint32_t m,
                                     const uint32_t *keys, size_t n_keys,
                                     const uint8_t *classes, size_t n_classes,
                                     uint16_t r0, uint16_t c0, uint16_t h, uint16_t w,
                                     uint32_t key,
                                     uint16_t *border, size_t n_border);

lutniorad_answer reference_exist(uint32_t m,
                                 const uint32_t *keys, size_t n_keys,
                                 const uint8_t *classes, size_t n_classes,
                                 uint16_t r0, uint16_t c0, uint16_t h, uint16_t w,
                                 uint8_t of_class,
                                 uint16_t *border, size_t n_border);

lutniorad_answer reference_report(uint32_t m,
                                  const uint32_t *keys, size_t n_keys,
                                  const uint8_t *classes, size_t n_classes,
                                  uint16_t r0, uint16_t c0, uint16_t h, uint16_t w,
                                  uint16_t *border, size_t n_border,
                                  uint32_t *totals, size_t n_totals);

lutniorad_answer reference_select(uint32_t m,
                                  const uint32_t *keys, size_t n_keys,
                                  const uint8_t *classes, size_t n_classes,
                                  uint16_t r0, uint16_t c0, uint16_t h, uint16_t w,
                                  uint8_t of_class,
                                  uint16_t *border, size_t n_border,
                                  uint32_t *out, size_t n_out);

lutniorad_answer reference_select_tiled(uint32_t m, uint32_t tile,
                                        const uint32_t *keys, size_t n_keys,
                                        const uint8_t *classes, size_t n_classes,
                                        uint16_t r0, uint16_t c0, uint16_t h, uint16_t w,
                                        uint8_t of_class,
                                        uint16_t *border, size_t n_border,
                                        uint32_t *out, size_t n_out);

lutniorad_answer reference_month_clear(uint32_t m,
                                       uint16_t r0, uint16_t c0, uint16_t h, uint16_t w,
                                       uint64_t *table, size_t n_table);

lutniorad_answer reference_month_add(uint32_t m,
                                     const uint32_t *keys, size_t n_keys,
                                     const uint8_t *classes, size_t n_classes,
                                     uint16_t *border, size_t n_border,
                                     uint64_t *table, size_t n_table);

lutniorad_answer reference_read(const uint8_t *file, size_t n,
                                uint32_t *keys, size_t n_keys,
                                uint8_t *classes, size_t n_classes);

lutniorad_answer reference_write(uint32_t m,
                                 const uint32_t *keys, size_t n_keys,
                                 const uint8_t *classes, size_t n_classes,
                                 uint8_t *out, size_t n_out);

lutniorad_answer reference_sparse_check(uint32_t m,
                                        const uint32_t *keys, size_t n_keys,
                                        const uint8_t *classes, size_t n_classes);

lutniorad_answer reference_sparse_open(uint32_t m, uint32_t tile,
                                       const uint32_t *keys, size_t n_keys,
                                       const uint8_t *classes, size_t n_classes,
                                       uint16_t r0, uint16_t c0, uint16_t h, uint16_t w,
                                       uint16_t *border, size_t n_border,
                                       uint32_t *out, size_t n_out);

lutniorad_answer reference_sparse_exist(uint32_t m, uint8_t background,
                                        const uint32_t *keys, size_t n_keys,
                                        const uint8_t *classes, size_t n_classes,
                                        uint16_t r0, uint16_t c0, uint16_t h, uint16_t w,
                                        uint8_t of_class,
                                        uint16_t *border, size_t n_border);

lutniorad_answer reference_sparse_report(uint32_t m, uint8_t background,
                                         const uint32_t *keys, size_t n_keys,
                                         const uint8_t *classes, size_t n_classes,
                                         uint16_t r0, uint16_t c0, uint16_t h, uint16_t w,
                                         uint16_t *border, size_t n_border,
                                         uint32_t *totals, size_t n_totals);

lutniorad_answer reference_sparse_select(uint32_t m, uint32_t tile, uint8_t background,
                                         const uint32_t *keys, size_t n_keys,
                                         const uint8_t *classes, size_t n_classes,
                                         uint16_t r0, uint16_t c0, uint16_t h, uint16_t w,
                                         uint8_t of_class,
                                         uint16_t *border, size_t n_border,
                                         uint32_t *out, size_t n_out);

lutniorad_answer reference_sparse_read(const uint8_t *file, size_t n,
                                       uint32_t *keys, size_t n_keys,
                                       uint8_t *classes, size_t n_classes);

lutniorad_answer reference_sparse_write(uint32_t m,
                                        const uint32_t *keys, size_t n_keys,
                                        const uint8_t *classes, size_t n_classes,
                                        uint8_t *out, size_t n_out);

lutniorad_answer reference_salvage(uint32_t m,
                                   const uint32_t *keys, size_t n_keys,
                                   const uint8_t *classes, size_t n_classes,
                                   uint32_t *out_keys, size_t n_out_keys,
                                   uint8_t *out_classes, size_t n_out_classes,
                                   uint32_t *log, size_t n_log);

lutniorad_answer reference_overlay_exist(uint32_t m,
                                         const uint32_t *keys, size_t n_keys,
                                         const uint8_t *classes, size_t n_classes,
                                         uint32_t base_m,
                                         const uint32_t *base_keys, size_t n_base_keys,
                                         const uint8_t *base_classes, size_t n_base_classes,
                                         uint16_t r0, uint16_t c0, uint16_t h, uint16_t w,
                                         uint8_t of_class,
                                         uint16_t *border, size_t n_border);

lutniorad_answer reference_overlay_report(uint32_t m,
                                          const uint32_t *keys, size_t n_keys,
                                          const uint8_t *classes, size_t n_classes,
                                          uint32_t base_m,
                                          const uint32_t *base_keys, size_t n_base_keys,
                                          const uint8_t *base_classes, size_t n_base_classes,
                                          uint16_t r0, uint16_t c0, uint16_t h, uint16_t w,
                                          uint16_t *border, size_t n_border,
                                          uint32_t *totals, size_t n_totals);

lutniorad_answer reference_overlay_select(uint32_t m,
                                          const uint32_t *keys, size_t n_keys,
                                          const uint8_t *classes, size_t n_classes,
                                          uint32_t base_m,
                                          const uint32_t *base_keys, size_t n_base_keys,
                                          const uint8_t *base_classes, size_t n_base_classes,
                                          uint16_t r0, uint16_t c0, uint16_t h, uint16_t w,
                                          uint8_t of_class,
                                          uint16_t *border, size_t n_border,
                                          uint32_t *out, size_t n_out);

lutniorad_part reference_overlay_part(uint32_t m,
                                      const uint32_t *keys, size_t n_keys,
                                      const uint8_t *classes, size_t n_classes,
                                      uint32_t base_m,
                                      const uint32_t *base_keys, size_t n_base_keys,
                                      const uint8_t *base_classes, size_t n_base_classes,
                                      uint32_t key);

/* The most pixels that a picture has, how many classes there are, and the class of what the camera did not see. */
enum { MOST_PIXELS = 4096 * 4096, CLASSES = 256, NOT_SEEN = 255 };

/* The cells of a month's table, those of each class among them, and the most maps that a month has. */
enum { TABLE_M, TABLE_R0, TABLE_C0, TABLE_H, TABLE_W, TABLE_MAPS, TABLE_CLASSES };
enum { OF_CLASS_LEAST, OF_CLASS_GREATEST, OF_CLASS_SUM, OF_CLASS_MAPS, CELLS_OF_CLASS };
enum { TABLE_CELLS = TABLE_CLASSES + CLASSES * CELLS_OF_CLASS, MOST_MAPS = 1000 };

/*
 * The raster of a window: for each of its pixels, row by row from the north-west on, the index of the block that it
 * lies in. Every block is painted pixel by pixel, as far as it lies in the window. True where all keys are of the form
 * and every pixel of the window was painted just once. m is at most 12, and the window inside the picture.
 */
bool reference_raster(uint32_t m, const uint32_t *keys, size_t q, window at, uint32_t *raster);

/* The same of blocks that need not have every pixel: true where none was painted twice. Those in no block have this. */
enum { NO_RECORD = MOST_PIXELS };

bool reference_sparse_raster(uint32_t m, const uint32_t *keys, size_t q, window at, uint32_t *raster);

/* Is this the key of a block that lies in the window? m is at most 12. */
bool reference_lies_in(uint32_t m, uint32_t key, window at);

/* Is this the key of a maximal block of the window, among those of a side up to 2^tile? m and tile are at most 12. */
bool reference_maximal(uint32_t m, uint32_t tile, uint32_t key, window at);

#endif
