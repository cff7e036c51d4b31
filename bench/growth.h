/* How the operations grow with the window, and the check with the map. */
#ifndef GROWTH_H
#define GROWTH_H

void print_growth(void);

#endif
