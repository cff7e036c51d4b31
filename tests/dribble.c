/*
 * Copies standard input into a pipe in small pieces. Each waits until the reader has taken the last one, so that a
 * single read never gives the reader more than a piece.
 */
#define _DEFAULT_SOURCE /* beyond C99, FIONREAD and nanosleep */

#include <poll.h>
#include <stdbool.h>
#include <stdio.h>
#include <sys/ioctl.h>
#include <time.h>
#include <unistd.h>

static bool is_taken(void)
{
    int bytes = 0;
    return ioctl(STDOUT_FILENO, FIONREAD, &bytes) != 0 || bytes == 0;
}

static bool reader_has_ended(void)
{
    struct pollfd pipe_end = {STDOUT_FILENO, POLLOUT, 0};
    return poll(&pipe_end, 1, 0) == 1 && (pipe_end.revents & POLLERR) != 0;
}

int main(void)
{
    static const size_t sizes[] = {1, 2, 3, 5, 7, 11, 13};
    static const struct timespec moment = {0, 200000};
    char piece[13];
    size_t n;
    for (size_t i = 0; (n = fread(piece, 1, sizes[i % 7], stdin)) > 0; i++) {
        while (!is_taken() && !reader_has_ended())
            nanosleep(&moment, NULL);
        if (write(STDOUT_FILENO, piece, n) != (ssize_t)n)
            return 1;
    }
    return 0;
}
