/*
 * What the cases are made of: maps, sound and damaged, windows, and house files, right and spoiled.
 */
#ifndef MAPS_H
#define MAPS_H

#include "reference.h"

#include <stddef.h>
#include <stdint.h>

/* ---- Maps ---- */

enum { MOST_RECORDS = LUTNIORAD_MOST_RECORDS, ROOM_FOR_RECORDS = MOST_RECORDS + 8 };

typedef struct {
    uint32_t m;
    size_t q;
    uint32_t keys[ROOM_FOR_RECORDS];
    uint8_t classes[ROOM_FOR_RECORDS];
} map;

void copy_records(map *to, uint32_t m, size_t q, const void *keys, const void *classes);

void copy_map(map *to, const map *from);

/* The reference map. */
enum { REFERENCE_Q = 7 };
extern const uint32_t REFERENCE_KEYS[REFERENCE_Q];
extern const uint8_t REFERENCE_CLASSES[REFERENCE_Q];

void make_reference_map(map *a);

uint32_t power_of_5(uint32_t exponent);

/* ---- Sound maps ---- */

/* How many blocks can be cut in four, one after the other, in a block of side 2^exponent. */
size_t most_cuts(uint32_t exponent);

/* How the cuts are dealt out to the four quadrants: all to as few as will take them, evenly, or at random. */
typedef enum { DEEP, EVEN, RAGGED, SHAPES } shape;

/* Appends the keys of a block of side 2^exponent that is cut so many times, 1 + 3 * cuts of them. */
void cut_block(map *a, shape how, uint32_t exponent, uint32_t key, size_t cuts);

/* A map of 1 + 3 * cuts records, with random classes: any, or few. */
void make_map(map *a, uint32_t m, shape how, size_t cuts);

/* Of every size: as often few records as many, and now and then as many as there can be. */
void make_random_map(map *a);

/* How many pictures each m up to 2 has. 0 is one block; each other is cut in four, and then the quadrants of a mask. */
extern const size_t pictures[3];

/* One of the pictures, its classes as they were. */
void make_picture(map *a, uint32_t m, size_t number);

/* FEW is not counted among the paints: four classes at random, so that many records have the same. */
enum { RISING, ALL_0, ALL_255, RANDOM, PAINTS, FEW = PAINTS };

void paint(map *a, int how);

/* Makes every picture up to m = 2, in the first so many paints, and calls `run` after each. That is one case. */
void for_small_maps(map *a, void (*run)(void), int paints);

/*
 * Makes every list of up to `longest` keys, from 0 to `values` - 1 and 2^32 - 1, in few classes, and calls `run` after
 * each. That is one case.
 */
void for_key_lists(map *a, uint32_t m, size_t values, size_t longest, void (*run)(void));

/* A class to ask about: mostly that of a record, or else any, and often 0 or 255. */
uint8_t some_class(const map *a);

/* The side of a key's block. */
size_t side_of_block(uint32_t m, uint32_t key);

/* Are these four, in their order, the quadrants of one block? */
bool are_quadrants(uint32_t m, const uint32_t keys[4]);

/* The key of the block of twice the side around this one; of key 0 itself. */
uint32_t parent_of(uint32_t m, uint32_t key);

/*
 * Cuts the block of record i in four, or merges the four of which it is one. The class of the record is that of all
 * that come in its place. False where that cannot be done: the map is as it was.
 */
bool cut_record(map *a, size_t i);
bool merge_record(map *a, size_t i);

/* ---- Damaged maps ---- */

/* The damages, by number: each spoils a map at record i. */
extern const size_t n_damages;

void damage(map *a, size_t how, size_t i);

/* One or two damages at some records, often at one of the first or the last. */
void damage_at_random(map *a);

/* Does to a sound map each damage at each record, by turns, and calls `run` after each. */
void for_every_damage(const map *a, map *damaged, void (*run)(void));

/* Sets each key of a sound map, by turns, to each number up to beyond 5^m and to some far beyond, and calls `run`. */
void for_every_key(const map *a, map *damaged, void (*run)(void));

/* Some of the damages. The first appends the key of record i. */
void append(map *a, size_t i);

void drop(map *a, size_t i);

/* The record becomes the north-west quadrant of its block. A pixel stays as it is. */
void take_first_child(map *a, size_t i);

/* The same records in a quadrant of a picture of twice the side. */
void become_a_quadrant(map *a, size_t i);

/* ---- Windows ---- */

uint16_t side_of(uint32_t m); /* of a picture, 2^m */

window whole_picture(uint32_t m);

bool is_inside(window at, uint32_t m); /* the picture, and not empty */

/* Windows by number, inside and outside: each of the four numbers from 0 on to one beyond the side. */
size_t n_small_windows(uint32_t m);

window small_window(uint32_t m, size_t number);

/*
 * A window inside the picture: thin as often as square, often at an edge of the picture, or beginning or ending at a
 * multiple of some power of two or beside one. It has at most so many pixels, a power of two.
 */
window random_window(uint32_t m, size_t most_pixels);

/* One row or column at an edge of the picture, beside one, and in the middle; and single pixels in the corners. */
enum { THIN_WINDOWS = 8 };

window thin_window(uint32_t m, size_t number);

/* The whole picture, and all of it but a row or a column at some edges. */
enum { WIDE_WINDOWS = 5 };

window wide_window(uint32_t m, size_t number);

/*
 * Windows about a pixel, by number: on it, beside it, around it, in strips across the picture, and away from it. Their
 * rows are the pixel's own, up to `reach` before it or behind it, all of these, all of the picture, or one that is half
 * a picture away. So are their columns, and each way goes with each. At an edge of the picture some are empty.
 */
enum { WAYS = 6, WINDOWS_ABOUT = WAYS * WAYS };

window window_about(uint32_t m, window pixel, size_t reach, size_t number);

/* A pixel by number: the first are in the corners and in the middle of the picture, the others anywhere. m is over 0. */
enum { CHOSEN_PIXELS = 5 };

window nth_pixel(uint32_t m, size_t number);

/* A tile from 0 to m, any of which the window does not have so many that they take long. */
uint32_t some_tile(uint32_t m, window at);

/*
 * A map made for a window: blocks are cut as long as they lie partly in the window, down to the side 2^least. With
 * least = 0 each maximal block is a record, and so there are as many openings as there can be; else there are records
 * that have many maximal blocks. With random classes: any, or few.
 */
void make_map_around(map *a, uint32_t m, window at, uint32_t least);

/* A random window by number: two are on the map as it is, the next on one made for it, the last on one for another. */
enum { WINDOWS_ON_MAPS = 4 };

window random_window_on(map *a, size_t number, size_t most_pixels);

/* ---- Files ---- */

enum { HEADER = 20, ROOM_FOR_FILE = LUTNIORAD_FILE_BYTES(ROOM_FOR_RECORDS) };

size_t length_of_file(size_t q);

/* The file of a map, sparse or not, and zeros after it for the slices that are longer. Returns its length. */
size_t make_file(uint8_t file[ROOM_FOR_FILE], const map *a);

enum { FIELDS = 5 }; /* of the header, numbered from 0 */

void set_field(uint8_t *file, size_t field, uint32_t value);

/* The header as it must be. */
void set_header(uint8_t *file, uint32_t m, size_t q);

/* The spoils, by number: each is a value for a field in the file of a map. The first is the right one. */
extern const size_t n_spoils;
enum { CHIEF_SPOILS = 5 }; /* the first five */

uint32_t spoiled(const map *a, size_t field, size_t k);

#endif
