/*
 * Lutniorad: maps of classed pixels, stored as a list of square blocks.
 *
 * A picture has T rows and T columns of pixels, T = 2^m, m from 0 to 12. Row 0 is north, column 0 is west. Halving both
 * sides again and again cuts it into square blocks: level 0 is the whole picture, level m a single pixel.
 *
 * A KEY names a block. It is a number of m digits in base 5, the most significant first. Each digit chooses a quadrant:
 * 1 north-west, 2 north-east, 3 south-west, 4 south-east. A block of level d has d such digits and then m - d zeros. So
 * the whole picture is key 0 (at m = 0 the only key), and at m = 2 key 5 (digits 1 0) is its north-west quarter and
 * key 7 (digits 1 2) the pixel in row 0, column 1.
 *
 * A CLASS is what was seen in a block, one byte. 255 marks what the camera did not see. lutniorad_exist,
 * lutniorad_sparse_exist and lutniorad_overlay_exist know that, and say where they cannot tell, and lutniorad_salvage
 * fills gaps with it; for all other calls 255 is a class like any other.
 *
 * A MAP is m and a list of RECORDS, a key and a class each: two slices of the same length Q, from 1 to 65,536. A map is
 * sound when its blocks, in the order of the list, go through all pixels once in the order of their keys: the first
 * starts at the first pixel, each next one where the last one ended, and the last one ends with the picture.
 *
 * A WINDOW is a rectangle of pixels: h rows from row r0 on, and w columns from column c0 on. h and w are at least 1,
 * and r0 + h and c0 + w at most T. (No sum wraps: row 65,535 with h = 1 lies outside every picture.)
 *
 * A MAXIMAL BLOCK of a window is a block that lies in the window, while no larger block that lies in the window
 * contains it. Each pixel of the window lies in just one of them. They are listed by the row of their north-west
 * corner, then by its column, and there are always fewer than 4(w + h). At m = 2 the window r0 = 0, c0 = 1, h = 3,
 * w = 3 has six: 7, 10, 9, 17, 21, 22.
 *
 * A TILE is a block of side 2^c, c from 0 to m. Calls with `_tiled` in their names, and some for sparse maps, take c as
 * `tile` and use no larger block: one that lies in the window is then maximal when no larger one of a side up to 2^c
 * that lies in the window contains it. There are fewer than 4(w + h) plus the whole part of wh/4^c. With c = 0 the same
 * window has nine, which are its pixels: 7, 11, 12, 9, 13, 14, 17, 21, 22. With c = m a call does what it does without
 * a tile.
 *
 * An OPENING is a maximal block at which records are handed out. Go through the maximal blocks in their order. A block
 * is skipped when it lies in a record already handed out. Otherwise it is opened, and the records that overlap it are
 * handed out: one record that contains it, or those that lie in it, which follow one another in the map. An opening is
 * three numbers: the block's key, the index of its first record, from 0, and the number of its records. So each record
 * with a pixel in the window is handed out once, and no other is; and no choice of maximal blocks that meets all of
 * these records has fewer blocks than there are openings.
 *
 * The VIEW of a map through a window is the list of its records with a pixel there, each by key and class. Answers
 * about a window tell nothing of the rest of the map: on two sound maps of one m with the same view, lutniorad_open,
 * lutniorad_exist, lutniorad_report, lutniorad_select, those with a tile and lutniorad_windows answer and write the
 * same for the window, and lutniorad_month_add adds the same to its table. Only the index of an opening's first record
 * may differ, and the records from there on are the same. It tells how many records of the map come before. Whoever
 * hands answers on to others, who are to know no more than their own window, leaves it out, and the reasons of
 * lutniorad_why_record and lutniorad_why_block too, which may say an index.
 *
 * The BORDER is lent for opening a window, or many, for each question about its classes or its openings, and for adding
 * a map to a month: a 16-bit cell for each column of the window. It holds how far down the column has been handed out.
 * So in the end each of the first w cells is r0 + h; after many windows, by the last of them that reached the cell.
 *
 * A MONTH is a table of what maps of one m, added one after another, have in one window: 1,030 cells of 64 bits, which
 * the caller keeps from one call to the next.
 *
 *     cell        what stands in it
 *     0           m
 *     1 to 4      r0, c0, h, w
 *     5           how many maps were added, at most 1,000
 *     6 + 4k      for each class k from 0 to 255, of the numbers of its pixels in the window, map by map: the least,
 *     7 + 4k          the greatest,
 *     8 + 4k          the sum,
 *     9 + 4k          and how many of them are not 0
 *
 * A map that has no pixel of the class there counts as 0 pixels. Before the first map all these cells are 0.
 *
 * A HOUSE FILE is a map in bytes. Every number is little-endian:
 *
 *     offset      bytes
 *     0           4      length of the file, 20 + 5Q
 *     4           4      m
 *     8           4      Q
 *     12          4      offset of the keys, 20
 *     16          4      offset of the classes, 20 + 4Q
 *     20          4Q     the keys
 *     20 + 4Q     Q      the classes
 *
 * A SPARSE MAP leaves out records of one class, the background, where most of a picture is of that class: so it is
 * short, and so is its file. Its records are in the order of their keys and do not overlap: each starts where the last
 * one ended, or later. What lies between is a gap. There may be gaps anywhere, and no record at all: Q is from 0 to
 * 65,536. Calls with `sparse_` in their names take such a map. Those that ask for classes take the background too: each
 * pixel in no record has that class. A record may have it as well, and need not.
 *
 * The openings of a sparse map are those of any other, and besides each maximal block without a pixel of a record is an
 * EMPTY opening: its key, 0 and 0. Where a block has pixels of records and of gaps, it hands out the records, which may
 * be a single one inside it. So a block is skipped only when it lies in a record already handed out. The openings with
 * records are as few as can be; together with the empty ones there are never more than there are maximal blocks. In the
 * border a column has then been handed out as far as it lies in records handed out and in blocks opened.
 *
 * The house file of a sparse map is laid out as above, with Q = 0 in 20 bytes. It does not say that the map is sparse,
 * nor of which class the background is: whoever sends it agrees on that with whoever reads it. For lutniorad_check a
 * map with gaps is not sound: it refuses it by 5, or by 2 where there is no record. On a map that it accepts, or
 * refuses by anything else, a call with `sparse_` answers, refuses and writes the same as the one without, or as that
 * with `_tiled` where it takes a tile, whatever the background is. So does one that reads or writes a file, on any map,
 * but where the one without refuses by 2 for want of records.
 *
 * An OVERLAY is today's map, a sparse one, over a BASELINE, a complete map of the same m: that of the season, say. Each
 * pixel has the class of today's record that has it, and where none has it, that of the baseline's. Calls with
 * `overlay_` in their names take both maps, today's first. Where today's has no record, all is as in the baseline;
 * where it is complete itself, nothing of the baseline is seen.
 *
 * WHAT THE CALLER KEEPS. A slice is a pointer and its length in cells (elements of 8, 16, 32 or 64 bits, not bytes).
 * For each slice of a call:
 *   - the pointer is valid for that many cells, and aligned for their type;
 *   - it is not NULL, even where the length is 0: any aligned address will do then;
 *   - a slice that the call writes (a pointer without `const`) overlaps no other slice of the call;
 *   - while the call runs, nobody else writes the slice, nor reads it if the call writes it.
 * All else is answered or refused: any number may stand in any cell, and any length is taken whole.
 *
 * The last of these is meant as it stands. A map that another thread, a signal handler or a camera writes while a call
 * reads it makes the answer worthless, and the call may read outside its slices. Let the camera write into one buffer
 * while the calls read another.
 *
 * WHAT THE LIBRARY KEEPS. It takes no heap and remembers nothing from one call to the next. Every call ends. A call
 * that refuses writes nothing, but for one: a refusal by 8 from lutniorad_report, or from lutniorad_open or
 * lutniorad_select with a tile or without, or from one of these on a sparse map or an overlay, leaves the border as an
 * answer would.
 * A call that answers writes the cells named with it below, and all others keep their content. What stands at entry in
 * a slice that is written never matters, but for the table of a month, to which lutniorad_month_add adds.
 *
 * THREADS AND SIGNALS. Calls on different memory may run at the same time, in any number of threads, and in a signal
 * handler. No call takes a lock, sets errno or waits. The archive asks for memset and memcpy, and for nothing else.
 *
 * THE STACK. A call takes at most 3,200 bytes of stack; that is measured, and not proved. Where memset and memcpy come
 * from a shared C library and are bound when they are first called, as many linkers have it unless told otherwise, that
 * one call takes what the loader needs besides: up to 6,504 bytes together were seen, and elsewhere it may be more.
 * Link with `-static`, or with `-Wl,-z,now`, where stacks are small, as for a signal handler or a thread.
 *
 * WHAT A CALL COSTS. Each call that takes a map, but for lutniorad_salvage and those that write a file, checks all of
 * it first, whatever was checked before: some 21 instructions for each record, 1.4 million for the longest map, which
 * take a fraction of a millisecond. On a sparse map each record behind a gap takes some 180 more. Behind that it goes
 * by the records and blocks of the window and not by its pixels; but with tiles of one pixel each of these is a block.
 * lutniorad_windows checks the map once for up to 256 windows. Calls on an overlay check both maps. lutniorad_salvage
 * goes through the records twice, with some 60 instructions for each in all, and some 500 more for each that does not
 * start where the last one ended.
 *
 * CLASSES are numbers of the caller's own. Which of them is scum the library does not know; 255 alone has a meaning.
 *
 * The archive is made for Linux on x86-64.
 */
#ifndef LUTNIORAD_H
#define LUTNIORAD_H

#include <stddef.h>
#include <stdint.h>

/* The version of this header and of the library that belongs to it, as numbers and as text. */
#define LUTNIORAD_VERSION_MAJOR 1 /* rises when a program made for the last one may have to be changed */
#define LUTNIORAD_VERSION_MINOR 6 /* rises when there are more calls */
#define LUTNIORAD_VERSION_PATCH 0
#define LUTNIORAD_VERSION "1.6.0"

/* The limits. */
#define LUTNIORAD_MOST_M 12
#define LUTNIORAD_MOST_SIDE 4096          /* rows or columns of a picture: a border of so many cells is always enough */
#define LUTNIORAD_MOST_RECORDS 65536      /* of a map */
#define LUTNIORAD_CLASSES 256             /* and so many cells the totals have */
#define LUTNIORAD_NOT_SEEN 255            /* the class of what the camera did not see */
#define LUTNIORAD_MOST_FILE_BYTES 327700  /* of a house file */
#define LUTNIORAD_PROGRAM_FILE_BYTES 5020 /* of one that the window program takes */
#define LUTNIORAD_MONTH_CELLS 1030        /* of a month's table */
#define LUTNIORAD_MOST_MAPS 1000          /* in a month */
#define LUTNIORAD_MOST_WINDOWS 256        /* in one call of lutniorad_windows */

/*
 * Cells that are always enough, for a window of h rows and w columns and a map of q records. Where the arguments are
 * constants so is the number, and it may be the size of an array. Each argument is taken once; but h and w are taken
 * twice where there is a tile, which is from 0 to 12.
 */
#define LUTNIORAD_DECOMPOSE_CELLS(h, w) (4 * ((size_t)(h) + (size_t)(w)))
#define LUTNIORAD_OPEN_CELLS(h, w) (12 * ((size_t)(h) + (size_t)(w)))
#define LUTNIORAD_SELECT_CELLS(q, h, w) ((size_t)(q) + 4 * ((size_t)(h) + (size_t)(w)))
#define LUTNIORAD_TILES(tile, h, w) ((size_t)(h) * (size_t)(w) >> 2 * (tile)) /* no more have room in the window */
#define LUTNIORAD_DECOMPOSE_TILED_CELLS(tile, h, w) (LUTNIORAD_DECOMPOSE_CELLS(h, w) + LUTNIORAD_TILES(tile, h, w))
#define LUTNIORAD_OPEN_TILED_CELLS(tile, h, w) (3 * LUTNIORAD_DECOMPOSE_TILED_CELLS(tile, h, w))
#define LUTNIORAD_SELECT_TILED_CELLS(tile, q, h, w) ((size_t)(q) + LUTNIORAD_DECOMPOSE_TILED_CELLS(tile, h, w))
#define LUTNIORAD_FILE_BYTES(q) (20 + 5 * (size_t)(q)) /* just so many */
#define LUTNIORAD_WINDOWS_CELLS(windows) (5 * (size_t)(windows)) /* just so many, for so many windows */
#define LUTNIORAD_SALVAGE_LOG_CELLS(q) (2 * (LUTNIORAD_MOST_RECORDS + (size_t)(q))) /* of a broken map of q records */

#ifdef __cplusplus
extern "C" {
#endif

/*
 * What every call returns, but for three. Where `refusal` is 0 the call was answered: `place` is 0, and `first` and
 * `second` are as said with the call. Otherwise it was refused, `first` and `second` are 0, and the other two numbers
 * say why. But where a call on an overlay is refused by one of 1 to 5, `first` says whose map that is:
 * LUTNIORAD_TODAY or LUTNIORAD_BASELINE.
 */
typedef struct {
    uint32_t refusal, place, first, second;
} lutniorad_answer;

/*
 * What lutniorad_why_record and lutniorad_why_block return. Where `refusal` is 0 the call was answered: `place` is 0,
 * `said` is one of the seven numbers below, and `record` and `opening` are as said there. Otherwise it was refused,
 * these three are 0, and the other two numbers say why.
 */
typedef struct {
    uint32_t refusal, place, said, record, opening;
} lutniorad_reason;

/*
 * What lutniorad_overlay_part returns: a part of one of the two slices of classes. Where `refusal` is 0 the call was
 * answered: `place` is 0, `map` says whose slice it is, and the part is the `count` classes from number `first` on.
 * Otherwise it was refused, `first` and `count` are 0, and so is `map`, but where the refusal is one of 1 to 5 it says
 * whose map that is.
 */
typedef struct {
    uint32_t refusal, place, map, first, count;
} lutniorad_part;

/* The two maps of an overlay. */
#define LUTNIORAD_TODAY 1
#define LUTNIORAD_BASELINE 2

/*
 * The reasons of refusal: a name, the number and a sentence, and behind these what `place` is, where it is not 0; an
 * index is that of the record. Each call says which of them it gives, in its order. The first that holds is the answer.
 * 10 is given by the window program alone, which prints `R`, number and place.
 */
#define LUTNIORAD_REFUSALS(REFUSAL) \
    REFUSAL(LUTNIORAD_BAD_M, 1, "m is over 12") \
    REFUSAL(LUTNIORAD_BAD_COUNT, 2, "keys and classes differ in number, go over 65,536, or a complete map has none") \
    REFUSAL(LUTNIORAD_BAD_KEY, 3, "the key of a record names no block") /* index, from 0 */ \
    REFUSAL(LUTNIORAD_OVERLAP, 4, "a record starts before the last one ended") /* index, from 0 */ \
    REFUSAL(LUTNIORAD_GAP, 5, "a record starts after the last one ended, or the list ends early") /* index, or Q */ \
    REFUSAL(LUTNIORAD_BAD_WINDOW, 6, "the window is empty or not inside the picture") \
    REFUSAL(LUTNIORAD_SHORT_BORDER, 7, "the border has fewer cells than the window has columns") /* w, the widest */ \
    REFUSAL(LUTNIORAD_SHORT_ROOM, 8, "a slice that would be written is too short") /* cells needed */ \
    REFUSAL(LUTNIORAD_BAD_LAYOUT, 9, "the layout of the file is wrong") /* offset of the header field */ \
    REFUSAL(LUTNIORAD_LEFT_OVER, 10, "bytes are left over behind the last window") /* how many */ \
    REFUSAL(LUTNIORAD_OTHER_M, 15, "the m of the map is not that of the table or of the baseline") \
    REFUSAL(LUTNIORAD_MONTH_FULL, 16, "the table has 1,000 maps already") \
    REFUSAL(LUTNIORAD_BAD_TILE, 17, "the tile is larger than the picture") \
    REFUSAL(LUTNIORAD_NO_RECORD, 19, "the map has no record of this index") \
    REFUSAL(LUTNIORAD_NOT_MAXIMAL, 22, "the key is that of no maximal block of the window") \
    REFUSAL(LUTNIORAD_BAD_WINDOW_LIST, 25, "the list of windows is not in fours, or has more than 256 windows") \
    REFUSAL(LUTNIORAD_BAD_TABLE, 26, "the table is no month's: its window, count of maps or a class cannot be") \
    REFUSAL(LUTNIORAD_NO_BLOCK, 27, "the key names no block")

enum {
#define LUTNIORAD_NAMED(name, number, sentence) name = number,
    LUTNIORAD_REFUSALS(LUTNIORAD_NAMED)
#undef LUTNIORAD_NAMED
    LUTNIORAD_ANSWERED = 0
};

/* The sentence for a refusal, without a full stop; also for 0, and for a number that no call gives. */
static inline const char *lutniorad_sentence(uint32_t refusal)
{
    switch (refusal) {
    case LUTNIORAD_ANSWERED:
        return "answered";
#define LUTNIORAD_SAID(name, number, sentence) \
    case number: \
        return sentence;
        LUTNIORAD_REFUSALS(LUTNIORAD_SAID)
#undef LUTNIORAD_SAID
    default:
        return "no refusal of this library";
    }
}

/*
 * Is this map sound?
 *
 * Answers `first` = Q, `second` = 0 when it is. Writes nothing. The classes' content does not matter.
 * Refuses by 1; 2; then record by record 3, 4, 5; and at the end 5 at Q when the list ends early.
 */
lutniorad_answer lutniorad_check(uint32_t m,
                                 const uint32_t *keys, size_t n_keys,
                                 const uint8_t *classes, size_t n_classes);

/*
 * Which are the maximal blocks of this window?
 *
 * Answers `first` = the number of them, `second` = 0. The first so many cells of `out` are then their keys, in order.
 * There are fewer than 4(w + h), so an `out` of 4(w + h) cells is always long enough.
 *
 * Refuses by 1; 6; and 8, with the number of keys as place, when `out` is shorter than that.
 */
lutniorad_answer lutniorad_decompose(uint32_t m,
                                     uint16_t r0, uint16_t c0, uint16_t h, uint16_t w,
                                     uint32_t *out, size_t n_out);

/*
 * The same with a tile: which are the maximal blocks of this window among those of a side up to 2^tile?
 *
 * Answers and writes as lutniorad_decompose does; with `tile` = m, just what that does. There are fewer than 4(w + h)
 * plus the whole part of h * w / 4^tile blocks, and an `out` of so many cells is always long enough.
 *
 * Refuses by 1; 17 when `tile` is over m; 6; and 8, as lutniorad_decompose does.
 */
lutniorad_answer lutniorad_decompose_tiled(uint32_t m, uint32_t tile,
                                           uint16_t r0, uint16_t c0, uint16_t h, uint16_t w,
                                           uint32_t *out, size_t n_out);

/*
 * Which records does this window need, and at which blocks are they handed out?
 *
 * Answers `first` = the number of openings, `second` = the number of records that they hand out together.
 * The first 3 * `first` cells of `out` are then the openings, one after another: key, first record, number of records.
 * The first w cells of `border` are then r0 + h. There are fewer than 4(w + h) openings, so an `out` of 12(w + h) cells
 * is always long enough. The classes' content does not matter.
 *
 * On the map of the keys 5, 11, 12, 13, 14, 15, 20 at m = 2, the window r0 = 0, c0 = 1, h = 3, w = 3 has four openings
 * that hand out all seven records: 7 0 1, 10 1 4, 17 5 1, 21 6 1. Block 9 lies in record 0, and block 22 in record 6;
 * these were handed out at blocks 7 and 21.
 *
 * The map is checked first: there is no need to ask lutniorad_check before.
 * Refuses by 1; 2; then record by record 3, 4, 5, and 5 at Q, as lutniorad_check does; 6; 7, with place w, when
 * `border` is shorter than that; and 8, with three times the number of openings as place, when `out` is shorter than
 * that. On 8 the first w cells of `border` are r0 + h, and nothing else was written.
 */
lutniorad_answer lutniorad_open(uint32_t m,
                                const uint32_t *keys, size_t n_keys,
                                const uint8_t *classes, size_t n_classes,
                                uint16_t r0, uint16_t c0, uint16_t h, uint16_t w,
                                uint16_t *border, size_t n_border,
                                uint32_t *out, size_t n_out);

/*
 * The same with a tile: the maximal blocks that are opened or skipped are those of a side up to 2^tile.
 *
 * Answers and writes as lutniorad_open does; with `tile` = m, just what that does. There are fewer than 4(w + h) plus
 * h * w / 4^tile openings, and no more than records, so an `out` of three times as many cells as either is always long
 * enough.
 *
 * On the map and the window of the example above, with `tile` = 0, there are seven openings, a record at each: 7 0 1,
 * 11 1 1, 12 2 1, 13 3 1, 14 4 1, 17 5 1, 21 6 1.
 *
 * Refuses by 1; 17 when `tile` is over m; and then by 2 to 8, as lutniorad_open does.
 */
lutniorad_answer lutniorad_open_tiled(uint32_t m, uint32_t tile,
                                      const uint32_t *keys, size_t n_keys,
                                      const uint8_t *classes, size_t n_classes,
                                      uint16_t r0, uint16_t c0, uint16_t h, uint16_t w,
                                      uint16_t *border, size_t n_border,
                                      uint32_t *out, size_t n_out);

/*
 * Many windows on one map, which is checked once: how many openings, records and pixels has each of them?
 *
 * `windows` has four numbers for each window, r0, c0, h, w, one window after another. There are up to 256 of them, or
 * none. Answers `first` = the number of windows, `second` = 0. The first 5 * `first` cells of `out` are then five for
 * each window, in the order of the list:
 *
 *     0, 0, openings, records, pixels     for a window inside the picture
 *     6, 0, 0, 0, 0                       for any other
 *
 * The numbers of openings and of records are those that lutniorad_open returns for the window where it has room enough,
 * and pixels is h * w. A window that is refused by 6, as lutniorad_open would refuse it, is refused alone: the others
 * are answered all the same.
 *
 * One border serves all. In the end each of its cells is r0 + h of the last window in the list that is inside the
 * picture and wide enough to reach it; a cell that no such window reaches keeps its content. So where no window is
 * inside, no border is needed. The classes' content does not matter.
 *
 * On the map of lutniorad_open's example, the windows 0 1 3 3, 2 0 3 1, 3 0 1 1 and a border of four cells 9 9 9 9 give
 * `first` = 3, the cells 0 0 4 7 9, 6 0 0 0 0, 0 0 1 1 1, and the border 4 3 3 9.
 *
 * Refuses by 1; 2; then record by record 3, 4, 5, and 5 at Q, as lutniorad_check does; 25 when `n_windows` is no
 * multiple of 4, or over 1,024; 7, with the width of the widest window inside the picture as place, when `border` is
 * shorter than that; and 8, with five times the number of windows as place, when `out` is shorter than that. A refusal
 * writes nothing, neither border nor out.
 */
lutniorad_answer lutniorad_windows(uint32_t m,
                                   const uint32_t *keys, size_t n_keys,
                                   const uint8_t *classes, size_t n_classes,
                                   const uint16_t *windows, size_t n_windows,
                                   uint16_t *border, size_t n_border,
                                   uint32_t *out, size_t n_out);

/* What `said` can be: the first five of a record, the last two of a maximal block. */
enum {
    LUTNIORAD_HANDED_OUT = 1, /* the record is handed out by opening number `opening` */
    LUTNIORAD_NORTH = 2,      /* it is not: all its rows are above the window's */
    LUTNIORAD_SOUTH = 3,      /* it is not: all its rows are below the window's */
    LUTNIORAD_WEST = 4,       /* it is not: all its columns are before the window's */
    LUTNIORAD_EAST = 5,       /* it is not: all its columns are behind the window's */
    LUTNIORAD_OPENED = 6,     /* the block is opened, as opening number `opening` */
    LUTNIORAD_SKIPPED = 7     /* it is skipped: it lies in record `record`, which opening number `opening` handed out */
};

/*
 * Why is this record on the list of lutniorad_open for this window, or is it not?
 *
 * `record` is the index of a record of the map, from 0, and comes back as `record`. Answers `said` =
 * LUTNIORAD_HANDED_OUT, and `opening` is the number, from 0, of the one opening in the list that hands it out. Or the
 * record shares no pixel with the window: `said` is the first that is true of LUTNIORAD_NORTH, LUTNIORAD_SOUTH,
 * LUTNIORAD_WEST and LUTNIORAD_EAST, and `opening` is 0. So a record that lies north and east of the window is said to
 * lie north.
 *
 * The first w cells of `border` are then r0 + h. The list itself is not needed, and nothing is kept of it.
 *
 * On the map and the window of lutniorad_open's example, record 3 gives LUTNIORAD_HANDED_OUT by opening 1, and record 5
 * by opening 2. For the window r0 = 2, c0 = 2, h = 1, w = 1, record 0 gives LUTNIORAD_NORTH, and record 5
 * LUTNIORAD_WEST.
 *
 * Refuses by 1 to 7, as lutniorad_open does; and 19 when `record` is Q or more. A refusal writes nothing.
 */
lutniorad_reason lutniorad_why_record(uint32_t m,
                                      const uint32_t *keys, size_t n_keys,
                                      const uint8_t *classes, size_t n_classes,
                                      uint16_t r0, uint16_t c0, uint16_t h, uint16_t w,
                                      uint32_t record,
                                      uint16_t *border, size_t n_border);

/*
 * Why is this block on the list of lutniorad_open for this window, or is it not?
 *
 * `key` is that of a maximal block of the window, as lutniorad_decompose lists them. Answers `said` = LUTNIORAD_OPENED,
 * `record` = 0, and `opening` is the number, from 0, of the one opening in the list that has this key. Or `said` =
 * LUTNIORAD_SKIPPED: the block lies in record number `record`, and `opening` is the number of the one opening that
 * handed that out, at a block that comes before this one.
 *
 * The first w cells of `border` are then r0 + h.
 *
 * On the map and the window of lutniorad_open's example, block 10 gives LUTNIORAD_OPENED as opening 1; block 9
 * LUTNIORAD_SKIPPED for record 0, which opening 0 handed out; and block 22 LUTNIORAD_SKIPPED for record 6, which
 * opening 3 handed out.
 *
 * Refuses by 1 to 7, as lutniorad_open does; and 22 when `key` is that of no maximal block of the window. A refusal
 * writes nothing.
 */
lutniorad_reason lutniorad_why_block(uint32_t m,
                                     const uint32_t *keys, size_t n_keys,
                                     const uint8_t *classes, size_t n_classes,
                                     uint16_t r0, uint16_t c0, uint16_t h, uint16_t w,
                                     uint32_t key,
                                     uint16_t *border, size_t n_border);

/* What lutniorad_exist and lutniorad_sparse_exist answer. */
enum {
    LUTNIORAD_NO = 0,         /* no pixel of the window has the class, and all were seen */
    LUTNIORAD_YES = 1,        /* some pixel of the window has the class */
    LUTNIORAD_CANNOT_TELL = 2 /* no pixel of the window has the class, but some are of class 255: they may have it */
};

/*
 * Has this window a pixel of this class?
 *
 * Answers `first` = LUTNIORAD_NO, LUTNIORAD_YES or LUTNIORAD_CANNOT_TELL, `second` = 0. In each case the first w cells
 * of `border` are then r0 + h. Any byte is a class, also one that no record has. Of class 255 itself it can always
 * tell: yes where some pixel was not seen, no where all were.
 *
 * Only LUTNIORAD_NO may be taken as "none there". Where a caller wants more than that of a window it cannot tell about,
 * lutniorad_report says how many of its pixels were not seen.
 *
 * Before there were three answers, it was 0 also where it is LUTNIORAD_CANNOT_TELL now. A caller who tests `first == 0`
 * or `!first` for "none there" no longer gets that where it cannot tell, and has nothing to change. But what stands
 * behind the `else` of such a test, or behind `if (first)` or `first != 0`, is no longer a yes: 2 comes there too. Test
 * for a yes by `first == LUTNIORAD_YES`.
 *
 * Refuses by 1 to 7, as lutniorad_open does. There is no slice for the answer, and so no 8. A refusal has `first` = 0
 * too, so look at `refusal` before.
 */
lutniorad_answer lutniorad_exist(uint32_t m,
                                 const uint32_t *keys, size_t n_keys,
                                 const uint8_t *classes, size_t n_classes,
                                 uint16_t r0, uint16_t c0, uint16_t h, uint16_t w,
                                 uint8_t of_class,
                                 uint16_t *border, size_t n_border);

/*
 * How many pixels of each class has this window?
 *
 * Answers `first` = h * w, the pixels of the window, `second` = 0. The first 256 cells of `totals` are then the numbers
 * of its pixels of class 0, of class 1, and so on to class 255; they add up to h * w. Of a record that lies partly in
 * the window, that part counts. The first w cells of `border` are then r0 + h.
 *
 * On the map of the keys 5, 11, 12, 13, 14, 15, 20 at m = 2, with the classes 1, 2, 2, 3, 1, 1, 2, the window r0 = 0,
 * c0 = 1, h = 3, w = 3 has 4 pixels of class 1, 4 of class 2, 1 of class 3, and none of any other.
 *
 * Windows of one map may be added and subtracted, cell by cell. Where two windows overlap and their union is a
 * rectangle, their totals add up to those of the union and of the intersection. Where windows that share no pixel make
 * up a window, their totals add up to its own.
 *
 * Refuses by 1 to 7, as lutniorad_open does; and 8, with place 256, when `totals` has fewer cells than that. On 8 the
 * first w cells of `border` are r0 + h, and nothing else was written.
 */
lutniorad_answer lutniorad_report(uint32_t m,
                                  const uint32_t *keys, size_t n_keys,
                                  const uint8_t *classes, size_t n_classes,
                                  uint16_t r0, uint16_t c0, uint16_t h, uint16_t w,
                                  uint16_t *border, size_t n_border,
                                  uint32_t *totals, size_t n_totals);

/*
 * Which blocks of this window are of this class?
 *
 * Goes through the maximal blocks of the window in their order. For each it lists the block's own key, if the block
 * lies in a record of the class; otherwise the keys of those records inside the block that have the class, in the order
 * of the map. So each key is that of a block inside the window, and each pixel of the window that has the class lies in
 * just one of these blocks.
 *
 * Answers `first` = the number of keys, `second` = 0. The first so many cells of `out` are then the keys, and the first
 * w cells of `border` are r0 + h. An `out` of Q + 4(w + h) cells is always long enough; where no key is listed, none is
 * needed.
 *
 * On the map and the window of the example above, class 1 has the keys 7, 14, 9, 17, and class 2 has 11, 12, 21, 22.
 *
 * Refuses by 1 to 7, as lutniorad_open does; and 8, with the number of keys as place, when `out` is shorter than that.
 * On 8 the first w cells of `border` are r0 + h, and nothing else was written.
 */
lutniorad_answer lutniorad_select(uint32_t m,
                                  const uint32_t *keys, size_t n_keys,
                                  const uint8_t *classes, size_t n_classes,
                                  uint16_t r0, uint16_t c0, uint16_t h, uint16_t w,
                                  uint8_t of_class,
                                  uint16_t *border, size_t n_border,
                                  uint32_t *out, size_t n_out);

/*
 * The same with a tile: goes through the maximal blocks of a side up to 2^tile.
 *
 * Answers and writes as lutniorad_select does; with `tile` = m, just what that does. Where a record of the class is
 * larger than a tile, the window's part of it is listed by its maximal blocks, of which none is. An `out` of
 * Q + 4(w + h) + h * w / 4^tile cells is always long enough.
 *
 * On the map and the window of the example above, with `tile` = 0, class 1 has the keys 7, 9, 14, 17.
 *
 * Refuses by 1; 17 when `tile` is over m; and then by 2 to 8, as lutniorad_select does.
 */
lutniorad_answer lutniorad_select_tiled(uint32_t m, uint32_t tile,
                                        const uint32_t *keys, size_t n_keys,
                                        const uint8_t *classes, size_t n_classes,
                                        uint16_t r0, uint16_t c0, uint16_t h, uint16_t w,
                                        uint8_t of_class,
                                        uint16_t *border, size_t n_border,
                                        uint32_t *out, size_t n_out);

/*
 * Begins a month: makes the table of this window with no map.
 *
 * Answers `first` = 0, `second` = 0. The first 1,030 cells of `table` are then m, r0, c0, h, w, and zeros.
 *
 * Refuses by 1; 6; and 8, with place 1,030, when `table` has fewer cells than that.
 */
lutniorad_answer lutniorad_month_clear(uint32_t m,
                                       uint16_t r0, uint16_t c0, uint16_t h, uint16_t w,
                                       uint64_t *table, size_t n_table);

/*
 * Adds a map to a month: what lutniorad_report says of it in the table's window goes into the table.
 *
 * Answers `first` = the number of maps in the table now, `second` = 0. Cell 5 is then that number, and the four cells
 * of each class are those of the maps before and of this one. The first w cells of `border` are then r0 + h, by the
 * table's window.
 *
 * From an answered lutniorad_month_clear on, after any row of these calls, answered and refused in any order, the table
 * is that of the maps for which `refusal` was 0. Such a table is never refused by 26; and by 16 just when it has 1,000
 * maps and the map that comes is sound and of its m.
 *
 * With the map and the window of lutniorad_report's example alone, the table is 2, 0, 1, 3, 3, 1; then for class 0 four
 * zeros, for class 1 the cells 4, 4, 4, 1, for class 2 the same, for class 3 the cells 1, 1, 1, 1, and zeros.
 *
 * A table that did not come from these calls is taken too, whatever stands in it, as long as none of the reasons below
 * holds: sums and numbers of maps are added to what is there; where cell 5 is 0, least and greatest are those of this
 * map, and otherwise the lesser and the greater of what is there and what this map has. No sum overflows.
 *
 * Refuses by 1; 2; then record by record 3, 4, 5, and 5 at Q, as lutniorad_check does; 8, with place 1,030, when
 * `table` has fewer cells than that; 15; 26; 16; and 7, with place w, when `border` is shorter than the table's window
 * is wide. A refusal writes nothing, neither table nor border. The reasons for 26: in the table the window is empty or
 * not inside the picture, or the count of maps is over 1,000, or a class has more maps than that count, or a sum over
 * that count times h * w.
 */
lutniorad_answer lutniorad_month_add(uint32_t m,
                                     const uint32_t *keys, size_t n_keys,
                                     const uint8_t *classes, size_t n_classes,
                                     uint16_t *border, size_t n_border,
                                     uint64_t *table, size_t n_table);

/*
 * Reads a house file that lies in memory, the whole of it and nothing more.
 *
 * Answers `first` = m, `second` = Q. The first Q cells of `keys` and of `classes` are then the file's.
 * Either may be longer than Q, and they may differ in length.
 *
 * Only the layout is looked at. The keys may be any numbers: whether the map is sound is for the calls that use it.
 *
 * A file may be longer than the buffer it is read into, and its start may look like a house file. So let the buffer
 * have LUTNIORAD_MOST_FILE_BYTES + 1 bytes and hand over all that came: if it is full, the file is refused.
 *
 * Refuses by 9 at 0 when there are fewer than 20 bytes or the length field is not `n`; 1 by the field m; 2 by the
 * field Q; 9 at 8 when the length is not 20 + 5Q; 9 at 12 and 9 at 16 when the offset there is not as above; and 8,
 * with place Q, when `keys` or `classes` has fewer than Q cells.
 */
lutniorad_answer lutniorad_read(const uint8_t *file, size_t n,
                                uint32_t *keys, size_t n_keys,
                                uint8_t *classes, size_t n_classes);

/*
 * Writes a map as a house file.
 *
 * Answers `first` = 20 + 5Q, `second` = 0. The first 20 + 5Q bytes of `out` are then the file.
 * The keys may be any numbers: whether the map is sound is not looked at.
 *
 * Refuses by 1; 2; and 8, with place 20 + 5Q, when `out` is shorter than that.
 */
lutniorad_answer lutniorad_write(uint32_t m,
                                 const uint32_t *keys, size_t n_keys,
                                 const uint8_t *classes, size_t n_classes,
                                 uint8_t *out, size_t n_out);

/*
 * Is this sparse map sound?
 *
 * Answers `first` = Q, `second` = 0 when it is. Writes nothing. The classes' content does not matter.
 *
 * Refuses by 1; 2 when `n_keys` and `n_classes` differ or are over 65,536; then record by record 3, 4. There is no 5,
 * and no 2 for Q = 0.
 */
lutniorad_answer lutniorad_sparse_check(uint32_t m,
                                        const uint32_t *keys, size_t n_keys,
                                        const uint8_t *classes, size_t n_classes);

/*
 * Which records of a sparse map does this window need, and at which blocks are they handed out?
 *
 * The maximal blocks that are opened or skipped are those of a side up to 2^tile; for the largest, let `tile` be m.
 * Answers `first` = the number of openings, the empty ones among them, `second` = the number of records that the others
 * hand out together. The first 3 * `first` cells of `out` are then the openings, one after another, in the order of
 * their blocks: key, first record, number of records; of an empty one key, 0, 0. The first w cells of `border` are then
 * r0 + h. There are fewer than 4(w + h) plus h * w / 4^tile openings, so an `out` of
 * LUTNIORAD_OPEN_TILED_CELLS(tile, h, w) cells is always long enough. The classes' content does not matter.
 *
 * On the map of the keys 11, 12, 13, 20 at m = 2, the window r0 = 0, c0 = 1, h = 3, w = 3 with `tile` = 2 has five
 * openings that hand out all four records: 7 0 0, 10 0 3, 9 0 0, 17 0 0, 21 3 1. Block 22 lies in record 3, which was
 * handed out at block 21.
 *
 * Refuses by 1; 17 when `tile` is over m; 2, 3, 4 as lutniorad_sparse_check does; 6; 7, with place w, when `border` is
 * shorter than that; and 8, with three times the number of openings as place, when `out` is shorter than that. On 8 the
 * first w cells of `border` are r0 + h, and nothing else was written.
 */
lutniorad_answer lutniorad_sparse_open(uint32_t m, uint32_t tile,
                                       const uint32_t *keys, size_t n_keys,
                                       const uint8_t *classes, size_t n_classes,
                                       uint16_t r0, uint16_t c0, uint16_t h, uint16_t w,
                                       uint16_t *border, size_t n_border,
                                       uint32_t *out, size_t n_out);

/*
 * Has this window of a sparse map a pixel of this class?
 *
 * Answers `first` = LUTNIORAD_NO, LUTNIORAD_YES or LUTNIORAD_CANNOT_TELL, as lutniorad_exist does, `second` = 0, where
 * each pixel in no record is of class `background`. So with the background 255 what lies in gaps was not seen. The
 * first w cells of `border` are then r0 + h.
 *
 * Refuses by 1; 2, 3, 4 as lutniorad_sparse_check does; 6; and 7 as lutniorad_sparse_open does.
 */
lutniorad_answer lutniorad_sparse_exist(uint32_t m, uint8_t background,
                                        const uint32_t *keys, size_t n_keys,
                                        const uint8_t *classes, size_t n_classes,
                                        uint16_t r0, uint16_t c0, uint16_t h, uint16_t w,
                                        uint8_t of_class,
                                        uint16_t *border, size_t n_border);

/*
 * How many pixels of each class has this window of a sparse map?
 *
 * Answers `first` = h * w, the pixels of the window, `second` = 0. The first 256 cells of `totals` are then the numbers
 * of its pixels of class 0, of class 1, and so on to class 255, where each pixel in no record is of class `background`;
 * they add up to h * w. The first w cells of `border` are then r0 + h.
 *
 * On the map and the window of lutniorad_sparse_open's example, with the classes 2, 2, 3, 2 and the background 1, there
 * are 4 pixels of class 1, 4 of class 2, 1 of class 3, and none of any other.
 *
 * Refuses by 1; 2, 3, 4 as lutniorad_sparse_check does; 6; 7; and 8, with place 256, when `totals` has fewer cells than
 * that. On 8 the first w cells of `border` are r0 + h, and nothing else was written.
 */
lutniorad_answer lutniorad_sparse_report(uint32_t m, uint8_t background,
                                         const uint32_t *keys, size_t n_keys,
                                         const uint8_t *classes, size_t n_classes,
                                         uint16_t r0, uint16_t c0, uint16_t h, uint16_t w,
                                         uint16_t *border, size_t n_border,
                                         uint32_t *totals, size_t n_totals);

/*
 * Which blocks of this window of a sparse map are of this class?
 *
 * Goes through the maximal blocks of a side up to 2^tile in their order. For each it lists the block's own key, if the
 * block lies in a record of the class, or if it has no pixel of a record and the class is the background; otherwise the
 * keys of those records inside the block that have the class, and for the background also the fewest blocks that make
 * up each gap inside the block, all in the order of their keys. A record of the background's class is listed as it is,
 * and is not joined with the gaps beside it. So each key is that of a block inside the window, no larger than a tile,
 * and each pixel of the window that has the class lies in just one of these blocks.
 *
 * Answers `first` = the number of keys, `second` = 0. The first so many cells of `out` are then the keys, and the first
 * w cells of `border` are r0 + h. For a class other than the background, an `out` of
 * LUTNIORAD_SELECT_TILED_CELLS(tile, Q, h, w) cells is always long enough. For the background that may be too short:
 * gaps may be listed pixel by pixel, up to h * w keys. So many cells are always long enough, for any class; where that
 * is too much, ask with no cells, and then with as many as the refusal by 8 says.
 *
 * On the map and the window of the example above, with `tile` = 2, class 1 has the keys 7, 14, 9, 17, of which none is
 * a record's, and class 2 has 11, 12, 21, 22.
 *
 * Refuses by 1; 17 when `tile` is over m; 2, 3, 4 as lutniorad_sparse_check does; 6; 7; and 8, with the number of keys
 * as place, when `out` is shorter than that. On 8 the first w cells of `border` are r0 + h, and nothing else was
 * written.
 */
lutniorad_answer lutniorad_sparse_select(uint32_t m, uint32_t tile, uint8_t background,
                                         const uint32_t *keys, size_t n_keys,
                                         const uint8_t *classes, size_t n_classes,
                                         uint16_t r0, uint16_t c0, uint16_t h, uint16_t w,
                                         uint8_t of_class,
                                         uint16_t *border, size_t n_border,
                                         uint32_t *out, size_t n_out);

/*
 * Reads the house file of a sparse map, as lutniorad_read does that of any other; but Q may be 0.
 *
 * Answers `first` = m, `second` = Q. The first Q cells of `keys` and of `classes` are then the file's.
 *
 * Refuses by 9 at 0 when there are fewer than 20 bytes or the length field is not `n`; 1 by the field m; 2 by the
 * field Q when it is over 65,536; 9 at 8 when the length is not 20 + 5Q; 9 at 12 and 9 at 16 when the offset there is
 * not as above; and 8, with place Q, when `keys` or `classes` has fewer than Q cells.
 */
lutniorad_answer lutniorad_sparse_read(const uint8_t *file, size_t n,
                                       uint32_t *keys, size_t n_keys,
                                       uint8_t *classes, size_t n_classes);

/*
 * Writes a sparse map as a house file, as lutniorad_write does any other; but Q may be 0.
 *
 * Answers `first` = 20 + 5Q, `second` = 0. The first 20 + 5Q bytes of `out` are then the file.
 *
 * Refuses by 1; 2 when `n_keys` and `n_classes` differ or are over 65,536; and 8, with place 20 + 5Q, when `out` is
 * shorter than that.
 */
lutniorad_answer lutniorad_sparse_write(uint32_t m,
                                        const uint32_t *keys, size_t n_keys,
                                        const uint8_t *classes, size_t n_classes,
                                        uint8_t *out, size_t n_out);

/*
 * Makes a sound map of a broken one, of which a fault on its way has left records missing or garbled.
 *
 * Goes through the records in their order. One whose key names no block is dropped, by 3. One that starts before the
 * end of the last record kept is dropped, by 4. Any other is kept, key and class as they are; and where it starts
 * behind that end, the gap before it is filled first, by 5: with the fewest blocks that make it up, all of class 255.
 * So is what is left of the picture behind the last record kept. A map of no record becomes one block. Nothing is
 * guessed: a garbled key that names some block further on is kept, and then right records that start before the end of
 * that block are dropped.
 *
 * Answers `first` = Q of the map so made, `second` = the number of entries in the log. The first Q cells of `out_keys`
 * and of `out_classes` are then that map, and the first 2 * `second` cells of `log` are the entries, one after another,
 * in the order in which all this was done:
 *
 *     index, 3 or 4     for a record dropped, its index among all, from 0
 *     key, 5            for a block filled in
 *
 * The map so made is sound. A sound map comes back the same, with no entry; and where there is no entry the map was
 * sound. `out_keys` and `out_classes` of LUTNIORAD_MOST_RECORDS cells each are always long enough, and so is a `log` of
 * 2 * (65,536 + n_keys) cells, which is LUTNIORAD_SALVAGE_LOG_CELLS(n_keys). Any of them may be longer than is needed.
 *
 * With the keys 5, 11, 26, 11, 14, 20 and the classes 1, 2, 2, 3, 1, 2 at m = 2, `first` is 7 and `second` is 5: the
 * map has the keys 5, 11, 12, 13, 14, 15, 20 and the classes 1, 2, 255, 255, 1, 255, 2, and the log is 2 3, 3 4, 12 5,
 * 13 5, 15 5.
 *
 * Refuses by 1; 2 when `n_keys` and `n_classes` differ or are over 65,536, or when Q would be over 65,536; 8, with
 * place Q, when `out_keys` or `out_classes` has fewer than Q cells; and 8, with twice the number of entries as place,
 * when `log` is shorter than that. A refusal writes nothing.
 */
lutniorad_answer lutniorad_salvage(uint32_t m,
                                   const uint32_t *keys, size_t n_keys,
                                   const uint8_t *classes, size_t n_classes,
                                   uint32_t *out_keys, size_t n_out_keys,
                                   uint8_t *out_classes, size_t n_out_classes,
                                   uint32_t *log, size_t n_log);

/*
 * Has this window of an overlay a pixel of this class?
 *
 * Answers `first` = LUTNIORAD_NO, LUTNIORAD_YES or LUTNIORAD_CANNOT_TELL, as lutniorad_exist does, `second` = 0, by the
 * classes of the overlay: a pixel that today's map has not seen, by a record of class 255, was not seen, whatever the
 * baseline says. The first w cells of `border` are then r0 + h.
 *
 * Refuses by 1, 2, 3, 4 for today's map, as lutniorad_sparse_check does, with `first` = LUTNIORAD_TODAY; 1 to 5 for the
 * baseline, as lutniorad_check does, with `first` = LUTNIORAD_BASELINE; 15 when `m` and `base_m` differ; 6; and 7, with
 * place w, when `border` is shorter than that.
 */
lutniorad_answer lutniorad_overlay_exist(uint32_t m,
                                         const uint32_t *keys, size_t n_keys,
                                         const uint8_t *classes, size_t n_classes,
                                         uint32_t base_m,
                                         const uint32_t *base_keys, size_t n_base_keys,
                                         const uint8_t *base_classes, size_t n_base_classes,
                                         uint16_t r0, uint16_t c0, uint16_t h, uint16_t w,
                                         uint8_t of_class,
                                         uint16_t *border, size_t n_border);

/*
 * How many pixels of each class has this window of an overlay?
 *
 * Answers `first` = h * w, the pixels of the window, `second` = 0. The first 256 cells of `totals` are then the numbers
 * of its pixels of class 0, of class 1, and so on to class 255, by the classes of the overlay; they add up to h * w.
 * The first w cells of `border` are then r0 + h.
 *
 * With the keys 9, 13, 14 and the classes 3, 2, 2 of today over the map of the keys 5, 11, 12, 13, 14, 15, 20 and the
 * classes 1, 2, 2, 3, 1, 1, 2 at m = 2, the window r0 = 0, c0 = 1, h = 3, w = 3 has 2 pixels of class 1, 6 of class 2,
 * 1 of class 3, and none of any other.
 *
 * Refuses by 1 to 5 with `first`, 15, 6 and 7, as lutniorad_overlay_exist does; and 8, with place 256, when `totals`
 * has fewer cells than that. On 8 the first w cells of `border` are r0 + h, and nothing else was written.
 */
lutniorad_answer lutniorad_overlay_report(uint32_t m,
                                          const uint32_t *keys, size_t n_keys,
                                          const uint8_t *classes, size_t n_classes,
                                          uint32_t base_m,
                                          const uint32_t *base_keys, size_t n_base_keys,
                                          const uint8_t *base_classes, size_t n_base_classes,
                                          uint16_t r0, uint16_t c0, uint16_t h, uint16_t w,
                                          uint16_t *border, size_t n_border,
                                          uint32_t *totals, size_t n_totals);

/*
 * Which blocks of this window of an overlay are of this class?
 *
 * Goes through the maximal blocks of the window in their order. For each it lists the keys of the fewest blocks that
 * make up its pixels of the class, in the order of the keys. So what belongs together is joined, whichever map it comes
 * from, and need be no record of either. Each key is that of a block inside the window, and each pixel of the window
 * that has the class lies in just one of these blocks, and no other pixel does.
 *
 * Answers `first` = the number of keys, `second` = 0. The first so many cells of `out` are then the keys, and the first
 * w cells of `border` are r0 + h. A cell for each pixel of the window, h * w, is always enough; where that is too much,
 * ask with no cells, and then with as many as the refusal by 8 says.
 *
 * On the maps and the window of the example above, class 2 has the keys 10, 21, 22: two records of each map together
 * make up block 10.
 *
 * Refuses by 1 to 5 with `first`, 15, 6 and 7, as lutniorad_overlay_exist does; and 8, with the number of keys as
 * place, when `out` is shorter than that. On 8 the first w cells of `border` are r0 + h, and nothing else was written.
 */
lutniorad_answer lutniorad_overlay_select(uint32_t m,
                                          const uint32_t *keys, size_t n_keys,
                                          const uint8_t *classes, size_t n_classes,
                                          uint32_t base_m,
                                          const uint32_t *base_keys, size_t n_base_keys,
                                          const uint8_t *base_classes, size_t n_base_classes,
                                          uint16_t r0, uint16_t c0, uint16_t h, uint16_t w,
                                          uint8_t of_class,
                                          uint16_t *border, size_t n_border,
                                          uint32_t *out, size_t n_out);

/*
 * Which classes has the viewer to show in one block of an overlay?
 *
 * Answers which part of whose slice: the classes of today's records that overlap the block of the key, `map` =
 * LUTNIORAD_TODAY; or where none does, those of the baseline's, `map` = LUTNIORAD_BASELINE. Either are records that
 * follow one another, `count` of them from number `first` on, and there is at least one. So with `map` =
 * LUTNIORAD_TODAY the part begins at classes + first, and otherwise at base_classes + first. It is the caller's own
 * memory: nothing is copied, and nothing written.
 *
 * On the maps of the example above, key 10 gives `map` = LUTNIORAD_TODAY, `first` = 1 and `count` = 2, and key 15 gives
 * `map` = LUTNIORAD_BASELINE, `first` = 5 and `count` = 1.
 *
 * Refuses by 1 to 5, with `map`, and 15, as lutniorad_overlay_exist does with `first`; and by 27 where
 * lutniorad_check would refuse a record of this key by 3.
 */
lutniorad_part lutniorad_overlay_part(uint32_t m,
                                      const uint32_t *keys, size_t n_keys,
                                      const uint8_t *classes, size_t n_classes,
                                      uint32_t base_m,
                                      const uint32_t *base_keys, size_t n_base_keys,
                                      const uint8_t *base_classes, size_t n_base_classes,
                                      uint32_t key);

#ifdef __cplusplus
}
#endif

#endif
