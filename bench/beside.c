#include "beside.h"

#include "summary.h"

#include <inttypes.h>
#include <stdio.h>

void print_beside(int decimals, double other, double ours, double most)
{
    double times = ours / other;
    printf(" %9.*f | %6.3f%s |", decimals, other, times, times > most ? "*" : " ");
}

void print_beside_opening(const cell *c, int windows, double most)
{
    double whole = (double)c->library, each = (double)c->past_library / windows;
    int decimals = windows > 1;
    printf(" %9" PRId64 " |", c->library);
    print_beside(0, (double)c->opening, whole, 1e9);
    print_beside(0, (double)c->plain, whole, MOST_OF_PLAIN);
    printf(" %10.*f |", decimals, each);
    print_beside(decimals, (double)c->past_opening / windows, each, most);
    print_beside(decimals, (double)c->past_plain / windows, each, MOST_OF_PLAIN);
    printf("\n");
    fflush(stdout);
}
