/*
 * The independent window program: from standard input a house file and then windows of eight bytes, each answered on
 * standard output by brute force.
 */
#include "reference.h"

#include <stdio.h>
#include <stdlib.h>

enum { LENGTH_FIELD = 4, LONGEST_FILE = 5020, MOST_RECORDS = 1000, MOST_COLUMNS = 4096 };

static uint8_t file[LONGEST_FILE];
static uint32_t keys[MOST_RECORDS];
static uint8_t classes[MOST_RECORDS];

/* A number of n bytes, the least significant first. */
static uint32_t number_in(const uint8_t *bytes, size_t n)
{
    uint32_t number = 0;
    for (size_t i = 0; i < n; i++)
        number |= (uint32_t)bytes[i] << 8 * i;
    return number;
}

/*
 * Reads as many bytes as the length field says, and returns how many there were. Of a file that says more than there is
 * room for only the field is read: too few bytes for any file.
 */
static size_t read_file(void)
{
    size_t n = fread(file, 1, LENGTH_FIELD, stdin);
    size_t length = n == LENGTH_FIELD ? number_in(file, LENGTH_FIELD) : 0;
    if (length > LENGTH_FIELD && length <= LONGEST_FILE)
        n += fread(file + n, 1, length - n, stdin);
    return n;
}

static void print_refusal(lutniorad_answer refused)
{
    printf("R %u %u\n", (unsigned)refused.refusal, (unsigned)refused.place);
}

/* The classes of the window's pixels, counted pixel by pixel. Returns how many pixels there were. */
static unsigned print_classes(uint32_t m, size_t q, window at)
{
    static uint32_t raster[MOST_PIXELS];
    unsigned pixels[CLASSES] = {0}, all = 0;
    if (!reference_raster(m, keys, q, at, raster))
        abort();
    for (size_t i = 0; i < (size_t)at.h * at.w; i++) {
        pixels[classes[raster[i]]]++;
        all++;
    }
    for (unsigned k = 0; k < CLASSES; k++)
        if (pixels[k] > 0)
            printf("A %u %u\n", k, pixels[k]);
    return all;
}

static void answer_window(uint32_t m, size_t q, window at)
{
    static uint16_t border[MOST_COLUMNS];
    static uint32_t openings[3 * MOST_RECORDS]; /* each hands out a record at least */
    printf("W %u %u %u %u\n", at.r0, at.c0, at.h, at.w);
    lutniorad_answer opened = reference_open(m, keys, q, classes, q, at.r0, at.c0, at.h, at.w, border, MOST_COLUMNS,
                                             openings, 3 * MOST_RECORDS);
    if (opened.refusal != 0) {
        print_refusal(opened);
        return;
    }
    for (uint32_t *o = openings; o < openings + 3 * opened.first; o += 3)
        printf("O %u %u %u\n", (unsigned)o[0], (unsigned)o[1], (unsigned)o[2]);
    unsigned pixels = print_classes(m, q, at);
    printf("T %u %u %u\n", (unsigned)opened.first, (unsigned)opened.second, pixels);
}

int main(void)
{
    lutniorad_answer answer = reference_read(file, read_file(), keys, MOST_RECORDS, classes, MOST_RECORDS);
    uint32_t m = answer.first, q = answer.second;
    if (answer.refusal == 0)
        answer = reference_check(m, keys, q, classes, q);
    if (answer.refusal != 0) {
        print_refusal(answer);
        return 0;
    }
    uint8_t bytes[8];
    size_t n;
    while ((n = fread(bytes, 1, sizeof bytes, stdin)) == sizeof bytes) {
        uint16_t numbers[4];
        for (size_t i = 0; i < 4; i++)
            numbers[i] = (uint16_t)number_in(bytes + 2 * i, 2);
        window at = {numbers[0], numbers[1], numbers[2], numbers[3]};
        answer_window(m, q, at);
    }
    if (n > 0)
        printf("R %u %u\n", (unsigned)LUTNIORAD_LEFT_OVER, (unsigned)n);
    return 0;
}
