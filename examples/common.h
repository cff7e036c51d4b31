/*
 * What the examples have in common: a house file by its name, numbers from the command line, how a refusal and what
 * exists are said, and the end of a program.
 */
#ifndef COMMON_H
#define COMMON_H

#include <stdio.h>
#include <stdlib.h>

#include "lutniorad.h"

/* A house file and the map that is read from it: too large for most stacks. */
typedef struct {
    uint8_t file[LUTNIORAD_MOST_FILE_BYTES + 1]; /* with a byte more, so that what is too long is refused */
    uint32_t keys[LUTNIORAD_MOST_RECORDS];
    uint8_t classes[LUTNIORAD_MOST_RECORDS];
    uint32_t m, q;
} picture;

typedef struct {
    uint16_t r0, c0, h, w;
} window;

/* lutniorad_read, or lutniorad_sparse_read, which takes a file of no record too. */
typedef lutniorad_answer reading(const uint8_t *, size_t, uint32_t *, size_t, uint8_t *, size_t);

/*
 * Reads a house file. False where the file cannot be opened or read, which is said on standard error. Otherwise
 * `answer` is what the call says of its bytes.
 */
static inline int read_picture_by(reading *call, const char *name, picture *to, lutniorad_answer *answer)
{
    FILE *in = fopen(name, "rb");
    if (in == NULL) {
        fprintf(stderr, "%s: cannot be opened\n", name);
        return 0;
    }
    size_t length = fread(to->file, 1, sizeof to->file, in);
    int failed = ferror(in); /* else what came before the failure would count as the file */
    fclose(in);
    if (failed) {
        fprintf(stderr, "%s: cannot be read\n", name);
        return 0;
    }
    *answer = call(to->file, length, to->keys, LUTNIORAD_MOST_RECORDS, to->classes, LUTNIORAD_MOST_RECORDS);
    to->m = answer->first;
    to->q = answer->second;
    return 1;
}

static inline int read_picture(const char *name, picture *to, lutniorad_answer *answer)
{
    return read_picture_by(lutniorad_read, name, to, answer);
}

/* False where the text is no number, or one that is over `most`. */
static inline int take_number(const char *text, unsigned long most, unsigned long *number)
{
    char *end;
    *number = strtoul(text, &end, 10);
    return text[0] >= '0' && text[0] <= '9' && *end == '\0' && *number <= most;
}

/* False where one of the four texts is no number of 16 bits. */
static inline int take_window(char **texts, window *at)
{
    unsigned long number[4];
    for (int i = 0; i < 4; i++)
        if (!take_number(texts[i], UINT16_MAX, &number[i]))
            return 0;
    at->r0 = (uint16_t)number[0];
    at->c0 = (uint16_t)number[1];
    at->h = (uint16_t)number[2];
    at->w = (uint16_t)number[3];
    return 1;
}

static inline void say_refusal(FILE *to, lutniorad_answer a)
{
    fprintf(to, "refused %u at %u: %s\n", (unsigned)a.refusal, (unsigned)a.place, lutniorad_sentence(a.refusal));
}

/* What lutniorad_exist answers, in words. */
static inline const char *existence(uint32_t answered)
{
    switch (answered) {
    case LUTNIORAD_YES:
        return "yes";
    case LUTNIORAD_NO:
        return "no";
    default: /* LUTNIORAD_CANNOT_TELL */
        return "can't tell";
    }
}

/* Did all come out that was printed? If not, as on a full disk, that is said on standard error. */
static inline int came_out(const char *program)
{
    if (fflush(stdout) == 0 && !ferror(stdout))
        return 1;
    fprintf(stderr, "%s: cannot write standard output\n", program);
    return 0;
}

/* The status to end with: the one handed in, or 2 where some of what was printed did not come out. */
static inline int end_with(const char *program, int status)
{
    return came_out(program) ? status : 2;
}

#endif
