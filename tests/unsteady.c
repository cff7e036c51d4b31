/*
 * A shared object to be loaded before the C library: read from standard input and write to standard output, made
 * unsteady. UNSTEADY_READ and UNSTEADY_WRITE say what becomes of one call after the other, over and over, a letter for
 * each: 'i' it is interrupted, 'a' it is to be made again, 'p' only a part is passed on, '.' it is passed on. After
 * UNSTEADY_READ_END and UNSTEADY_WRITE_END bytes a call fails. What the program may not do ends it: a call after that
 * by status 3, and a write that is not of whole lines, or of more than a pipe takes at once, by status 4.
 */
#define _DEFAULT_SOURCE /* beyond C99, syscall */

#include <errno.h>
#include <limits.h>
#include <sched.h>
#include <stdbool.h>
#include <stdint.h>
#include <stdlib.h>
#include <sys/syscall.h>
#include <unistd.h>

typedef struct {
    const char *pattern, *next;
    size_t left; /* bytes until it fails */
    bool known, failed;
} direction;

static void look_up(direction *way, const char *pattern, const char *end)
{
    const char *bytes = getenv(end);
    way->pattern = getenv(pattern);
    if (way->pattern == NULL || *way->pattern == '\0')
        way->pattern = ".";
    way->next = way->pattern;
    way->left = bytes == NULL ? SIZE_MAX : (size_t)strtoul(bytes, NULL, 10);
    way->known = true;
}

static char next_letter(direction *way)
{
    char letter = *way->next++;
    if (*way->next == '\0')
        way->next = way->pattern;
    return letter;
}

static ssize_t fail(int reason)
{
    errno = reason;
    return -1;
}

/* The call of this number, for bytes from or to a descriptor that is unsteady this way. */
static ssize_t call(direction *way, long number, int descriptor, const void *bytes, size_t n)
{
    if (way->failed)
        _exit(3);
    char letter = next_letter(way);
    if (letter == 'i')
        return fail(EINTR);
    if (letter == 'a')
        return fail(EAGAIN);
    if (letter == 'p')
        n = (n + 1) / 2;
    if (way->left == 0) {
        way->failed = true;
        return fail(EIO);
    }
    ssize_t passed = syscall(number, descriptor, bytes, n < way->left ? n : way->left);
    if (passed > 0)
        way->left -= (size_t)passed;
    return passed;
}

ssize_t read(int descriptor, void *bytes, size_t n)
{
    static direction in;
    if (descriptor != STDIN_FILENO)
        return syscall(SYS_read, descriptor, bytes, n);
    if (!in.known)
        look_up(&in, "UNSTEADY_READ", "UNSTEADY_READ_END");
    return call(&in, SYS_read, descriptor, bytes, n);
}

ssize_t write(int descriptor, const void *bytes, size_t n)
{
    static direction out;
    if (descriptor != STDOUT_FILENO)
        return syscall(SYS_write, descriptor, bytes, n);
    if (!out.known)
        look_up(&out, "UNSTEADY_WRITE", "UNSTEADY_WRITE_END");
    if (n > PIPE_BUF || (n > 0 && ((const char *)bytes)[n - 1] != '\n'))
        _exit(4);
    return call(&out, SYS_write, descriptor, bytes, n);
}

/* No other is waited for here, so that a program that waits in vain gives up the sooner. */
int sched_yield(void)
{
    return 0;
}
